//! An independent receiver. Of damage within the limits it is told what was sent and what was turned, and decodes nothing; of any other bytes it
//! finds the nearest code word. It shares no code and no table with the receiver that is tested.

use crate::air::{Came, Sent, COLUMNS, LINE, NUMBERS, ROWS, WORDS};

pub const SLOT: usize = 1003;

/// What taking a line answers, by the numbers of include/demborugy.h.
#[derive(Clone, Copy, PartialEq, Debug)]
pub enum Answer {
    Took,
    Lost,
    Full,
}

#[derive(Clone)]
struct Slot {
    mark: u8,
    page: u8,
    version: u8,
    letters: [[u8; COLUMNS]; ROWS],
}

/// The pages, slot by slot.
pub struct Reference {
    slots: Vec<Slot>,
}

/// What is read of a line: its page, version and row, and those letters that came.
struct Read {
    page: u8,
    version: u8,
    row: usize,
    letters: [Option<u8>; COLUMNS],
}

impl Reference {
    /// The pages of a store that is as it should be.
    pub fn of_store(store: &[u8]) -> Reference {
        let slots = store.chunks(SLOT).map(|bytes| {
            let mut slot = Slot {
                mark: bytes[0],
                page: bytes[1],
                version: bytes[2],
                letters: [[0; COLUMNS]; ROWS],
            };
            for (row, letters) in slot.letters.iter_mut().zip(bytes[3..].chunks(COLUMNS)) {
                row.copy_from_slice(letters);
            }
            slot
        });
        Reference {
            slots: slots.collect(),
        }
    }

    /// A line that came within the limits: it is lost if two bits of a number were turned, and lacks the letters of which one was.
    pub fn told(&mut self, sent: &Sent, came: &Came) -> Answer {
        if came.turned[..NUMBERS].contains(&2) {
            return Answer::Lost;
        }
        let mut letters = [None; COLUMNS];
        for (c, letter) in letters.iter_mut().enumerate() {
            if came.turned[NUMBERS + c] == 0 {
                *letter = Some(sent.letters[c]);
            }
        }
        self.apply(&Read {
            page: sent.page,
            version: sent.version,
            row: sent.row as usize,
            letters,
        })
    }

    /// Any 46 bytes, however they came about.
    pub fn untold(&mut self, bytes: &[u8]) -> Answer {
        match read(bytes) {
            Some(read) => self.apply(&read),
            None => Answer::Lost,
        }
    }

    fn slot_of(&self, page: u64) -> Option<usize> {
        self.slots
            .iter()
            .position(|slot| slot.mark == 1 && u64::from(slot.page) == page)
    }

    fn apply(&mut self, read: &Read) -> Answer {
        let free = || self.slots.iter().position(|slot| slot.mark == 0);
        let Some(at) = self.slot_of(read.page.into()).or_else(free) else {
            return Answer::Full;
        };
        let slot = &mut self.slots[at];
        if slot.mark == 0 || slot.version != read.version {
            *slot = Slot {
                mark: 1,
                page: read.page,
                version: read.version,
                letters: [[0; COLUMNS]; ROWS],
            };
        }
        for (letter, came) in slot.letters[read.row].iter_mut().zip(read.letters) {
            *letter = came.unwrap_or(*letter);
        }
        Answer::Took
    }

    /// Whether a store has just these pages, in these slots, byte for byte.
    pub fn stands_in(&self, store: &[u8]) -> bool {
        store.len() == SLOT * self.slots.len()
            && self
                .slots
                .iter()
                .zip(store.chunks(SLOT))
                .all(|(slot, bytes)| {
                    bytes[..3] == [slot.mark, slot.page, slot.version]
                        && bytes[3..] == *slot.letters.as_flattened()
                })
    }

    /// Where a row of a page stands in the store, and its letters.
    pub fn row(&self, page: u64, row: u64) -> Option<(usize, &[u8])> {
        let slot = self.slot_of(page)?;
        let letters = self.slots[slot].letters.get(row as usize)?;
        Some((SLOT * slot + 3 + COLUMNS * row as usize, letters))
    }

    pub fn version(&self, page: u64) -> Option<u64> {
        Some(self.slots[self.slot_of(page)?].version.into())
    }
}

/// The number whose code word differs from a byte in at most one bit.
pub fn number(byte: u8) -> Option<u8> {
    let distance = |n: &u8| (WORDS[*n as usize] ^ byte).count_ones();
    let nearest = (0..16).min_by_key(distance)?;
    (distance(&nearest) <= 1).then_some(nearest)
}

/// The letter of a byte: an odd number of its bits are set, and its seven bits are from 32 on.
pub fn letter(byte: u8) -> Option<u8> {
    let letter = byte % 128;
    (byte.count_ones() % 2 == 1 && letter >= 32).then_some(letter)
}

fn read(bytes: &[u8]) -> Option<Read> {
    let two = |k: usize| Some(number(bytes[k])? * 16 + number(bytes[k + 1])?);
    let (page, version, row) = (two(0)?, two(2)?, two(4)?);
    let mut letters = [None; COLUMNS];
    for (came, &byte) in letters.iter_mut().zip(&bytes[NUMBERS..LINE]) {
        *came = letter(byte);
    }
    (usize::from(row) < ROWS).then_some(Read {
        page,
        version,
        row: row.into(),
        letters,
    })
}

/// The first slot of a store that isn't as it should be: cut, past the sixtieth, with a bad mark or letter, or with a page that a lower slot holds.
pub fn first_fault(store: &[u8]) -> Option<u64> {
    let slots: Vec<&[u8]> = store.chunks(SLOT).collect();
    let faulty = |i: usize| {
        let slot = slots[i];
        let bad = |&letter: &u8| letter != 0 && !(32..=127).contains(&letter);
        let twice = |lower: &&[u8]| lower[0] == 1 && slot[0] == 1 && lower[1] == slot[1];
        i >= 60
            || slot.len() < SLOT
            || slot[0] > 1
            || slot[3..].iter().any(bad)
            || slots[..i].iter().any(twice)
    };
    (0..slots.len()).find(|&i| faulty(i)).map(|i| i as u64)
}
