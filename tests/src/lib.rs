//! Fountain strands: writer, read check, shelf and restorer.
//!
//! A second implementation of documents 01 and 02, written for comparison in
//! tests; of document 02 it has the items that have landed. Clarity comes before
//! speed. Each module is named after a section of document 01 or an item of
//! document 02, and each function quotes the sentence it renders, of document 01
//! where no other is named.
//!
//! Every public call (card reading, card cutting, dealing, undealing, the seed at a
//! schedule position, read check, its C form, the choice between two base callers,
//! the letters chosen, writing, shelving, restoring) takes numbers and slices and
//! answers a struct, an enum, a number or nothing, or a `Refusal` holding the number
//! of the first question answered "no". The letters chosen are answered as a part of
//! a slice, which is empty on a refusal. A refusal changes no buffer.
//!
//! The other functions are building blocks. Those that need an accepted card
//! (questions 2 to 4 and 27 all "yes") say so.

#![forbid(unsafe_code)]

pub mod card_cutter;
pub mod check_bytes_letters_screen;
pub mod clean_beats_mended;
pub mod dealing;
pub mod droplet;
pub mod generator_and_seed_schedule;
pub mod listing;
pub mod mending;
pub mod pool_card;
pub mod questions;
pub mod read_counts;
pub mod restorer;
pub mod schedule_position;
pub mod shelf;
pub mod two_base_callers;
pub mod vectors;
pub mod writer;

pub use card_cutter::cut_card;
pub use check_bytes_letters_screen::{read_check, read_check_c_form, Droplet};
pub use dealing::{deal, undeal};
pub use generator_and_seed_schedule::{schedule_step, DrawState};
pub use listing::listing;
pub use pool_card::{read_card, Card, Handed};
pub use questions::{questions_2_to_4, Refusal};
pub use restorer::{restore, Restored};
pub use schedule_position::seed_at;
pub use shelf::{shelve, Shelved};
pub use two_base_callers::{call_letters, choose_call, Choice};
pub use writer::{write, Stop, Written};
