//! What the differential tests share: a generator of its own for random cases, buffers with canaries, and the run over all cases.
//!
//! FOUNTAIN_CASES=5000000   runs that many cases of each call (200,000 if it is not set)
//! FOUNTAIN_CASE=123        runs case 123 alone
//! FOUNTAIN_CANARIES=0      lends buffers without canaries, so that a memory checker sees the first byte out of bounds

#![allow(dead_code)]

pub mod calls;
pub mod cards;
pub mod check_read;
pub mod drops;
pub mod joints;
pub mod lent;
pub mod random;
pub mod reads;
pub mod run;
pub mod shelves;
pub mod sizes;
pub mod wrong_bytes;
