//! Buffers to lend to the archive, with canaries before and after, which must survive each call.

use super::random::Random;
use std::env;
use std::ptr;
use std::sync::OnceLock;

/// How many canaries stand on each side.
fn canaries() -> usize {
    static COUNT: OnceLock<usize> = OnceLock::new();
    *COUNT.get_or_init(|| match env::var("FOUNTAIN_CANARIES") {
        Ok(count) => count.parse().expect("FOUNTAIN_CANARIES is a number"),
        Err(_) => 24,
    })
}

/// What a buffer may hold: its canary at a place, which differs from its neighbours.
pub trait Item: Copy + PartialEq {
    fn canary(place: usize) -> Self;
}

impl Item for u8 {
    fn canary(place: usize) -> u8 {
        (0xA7 ^ place.wrapping_mul(29)) as u8
    }
}

impl Item for u32 {
    fn canary(place: usize) -> u32 {
        0xC0DE_5EED ^ (place as u32).wrapping_mul(0x0101_0D0B)
    }
}

impl Item for u64 {
    fn canary(place: usize) -> u64 {
        0x5EED_C0DE_BAD0_CAFE ^ (place as u64).wrapping_mul(0x0101_0D0B_0705_0301)
    }
}

pub struct Lent<T> {
    whole: Vec<T>,
    margin: usize,
    length: usize,
    null: bool,
}

impl<T: Item> Lent<T> {
    /// A buffer that holds `items`. An empty one is NULL half of the time.
    pub fn new(random: &mut Random, items: &[T]) -> Lent<T> {
        let margin = canaries();
        let mut whole = Vec::with_capacity(items.len() + 2 * margin);
        whole.extend((0..margin).map(T::canary));
        whole.extend_from_slice(items);
        whole.extend((margin..2 * margin).map(T::canary));
        let null = items.is_empty() && random.once_in(2);
        Lent {
            whole,
            margin,
            length: items.len(),
            null,
        }
    }

    pub fn len(&self) -> usize {
        self.length
    }

    pub fn is_null(&self) -> bool {
        self.null
    }

    pub fn pointer(&self) -> *const T {
        if self.null {
            return ptr::null();
        }
        self.whole[self.margin..].as_ptr()
    }

    pub fn pointer_mut(&mut self) -> *mut T {
        if self.null {
            return ptr::null_mut();
        }
        self.whole[self.margin..].as_mut_ptr()
    }

    pub fn items(&self) -> &[T] {
        &self.whole[self.margin..self.margin + self.length]
    }

    fn canaries_live(&self) -> bool {
        let after = self.margin + self.length;
        (0..self.margin).all(|i| self.whole[i] == T::canary(i))
            && (0..self.margin).all(|i| self.whole[after + i] == T::canary(self.margin + i))
    }

    /// Whether the buffer holds just `expected` between living canaries.
    pub fn holds(&self, expected: &[T]) -> Result<(), String> {
        self.holds_past(0, expected)
    }

    /// The same with the first `free` places left out.
    pub fn holds_past(&self, free: usize, expected: &[T]) -> Result<(), String> {
        if !self.canaries_live() {
            return Err(String::from("a canary died"));
        }
        if self.items().len() != expected.len() {
            return Err(String::from("lengths differ"));
        }
        let free = free.min(expected.len());
        if self.items()[free..] == expected[free..] {
            return Ok(());
        }
        let place = (free..expected.len()).find(|&i| self.items()[i] != expected[i]);
        Err(format!(
            "place {} differs",
            place.expect("some place differs")
        ))
    }
}

/// Bytes in hex for a report, cut after the first 600.
pub fn hex(bytes: &[u8]) -> String {
    let mut text: String = bytes
        .iter()
        .take(600)
        .map(|byte| format!("{byte:02X}"))
        .collect();
    if bytes.len() > 600 {
        text += "..";
    }
    format!("({} bytes) {text}", bytes.len())
}
