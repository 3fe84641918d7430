//! Cases of the read check's C form.

use super::cards::{self, Numbers};
use super::lent::hex;
use super::random::Random;
use super::reads::{self, Read};
use super::run::Regions;
use second::{read_check, read_check_c_form, Handed};

pub struct Case {
    pub numbers: Numbers,
    pub read: Read,
    /// The lent buffer as it is before the call.
    pub out: Vec<u8>,
}

#[rustfmt::skip]
pub const REGIONS: &[&str] = &[
    "answer 16", "out just long enough", "out longer", "16: a byte short", "16: no bytes", "refused with a short out",
    "out NULL", "read NULL", "27: 9 too", "27: 9 to 13 and 16 fine",
    "mended, out just long enough", "mended, out longer", "16: mended, a byte short", "16: mended, no bytes",
];

impl Case {
    pub fn any(random: &mut Random) -> Case {
        let mut numbers = cards::any_accepted(random);
        let read = reads::any_read(random, &mut numbers);
        let length = random.length_for(numbers.droplet());
        if random.once_in(6) {
            cards::miss(random, &mut numbers);
            if random.once_in(8) {
                cards::miss(random, &mut numbers);
            }
        }
        Case {
            numbers,
            read,
            out: random.bytes(length),
        }
    }

    /// The number and the buffer at exit, by the second implementation.
    pub fn expected(&self) -> (u32, Vec<u8>) {
        let mut out = self.out.clone();
        let answer = read_check_c_form(&self.numbers.handed(), &self.read.letters, &mut out);
        (answer, out)
    }

    pub fn note(&self, regions: &mut Regions, answer: u32) {
        cards::note(regions, &self.numbers, answer);
        reads::note(regions, &self.numbers, &self.read, answer);
        let (length, needed) = (self.out.len(), self.numbers.droplet());
        regions.note_if(answer == 0 && length == needed, "out just long enough");
        regions.note_if(answer == 0 && length > needed, "out longer");
        regions.note_if(answer == 16 && length + 1 == needed, "16: a byte short");
        regions.note_if(answer == 16 && length == 0, "16: no bytes");
        if let Ok(droplet) = read_check(&self.numbers.handed(), &self.read.letters) {
            let is_mended = droplet.mended > 0;
            regions.note_if(
                is_mended && length == needed,
                "mended, out just long enough",
            );
            regions.note_if(is_mended && length > needed, "mended, out longer");
            regions.note_if(
                is_mended && length + 1 == needed,
                "16: mended, a byte short",
            );
            regions.note_if(is_mended && length == 0, "16: mended, no bytes");
        }
        if answer == 27 {
            let without_field = Handed {
                dealt: false,
                ..self.numbers.handed()
            };
            let rest = read_check_c_form(&without_field, &self.read.letters, &mut self.out.clone());
            regions.note_if(rest == 9, "27: 9 too");
            regions.note_if(rest == 0, "27: 9 to 13 and 16 fine");
        }
        regions.note_if(
            (9..=13).contains(&answer) && length < needed,
            "refused with a short out",
        );
    }

    pub fn report(&self) -> String {
        let read = String::from_utf8_lossy(&self.read.letters);
        format!(
            "{} read {:?} out {}",
            self.numbers.report(),
            read,
            hex(&self.out)
        )
    }
}
