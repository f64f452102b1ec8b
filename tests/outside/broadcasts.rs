//! Broadcasts: pages sent round and round, in versions that change, to a store that may have anything in it at first. Lines come lost, late, twice
//! and damaged, some beyond the limits; after each one the answer and every byte of the store is compared, and now and then rows and versions.

use crate::air::{bits_of, damage_within, Came, Sent, COLUMNS, LINE, ROWS};
use crate::chance::Chance;
use crate::library::Counts;
use crate::reference::{Answer, Reference};
use crate::refusals::random_store;
use crate::{library, same, Outcome};

const LINES_OF_A_BROADCAST: u64 = 5000;

/// A page as it is sent now.
struct Page {
    number: u8,
    version: u8,
    text: [[u8; COLUMNS]; ROWS],
}

struct Broadcast {
    chance: Chance,
    pages: Vec<Page>,
    sent: Vec<Sent>,
    /// Of a thousand bytes of numbers and of letters, how many are damaged.
    numbers: usize,
    letters: usize,
    store: Vec<u8>,
    reference: Reference,
}

/// How often each answer was given, and what else was compared.
#[derive(Default)]
struct Tally {
    lines: u64,
    took: u64,
    lost: u64,
    full: u64,
    refused: u64,
    rows: u64,
    batches: u64,
}

fn text(chance: &mut Chance) -> [[u8; COLUMNS]; ROWS] {
    let mut text = [[0; COLUMNS]; ROWS];
    text.as_flattened_mut()
        .iter_mut()
        .for_each(|letter| *letter = chance.letter());
    text
}

impl Broadcast {
    fn begin(seed: u64) -> Broadcast {
        let mut chance = Chance::new(seed);
        let slots = chance.pick(&[0, 1, 1, 2, 3, 5, 8, 16, 30, 59, 60]);
        let store = if chance.below(2) == 0 {
            vec![0; 1003 * slots]
        } else {
            random_store(&mut chance, slots)
        };
        let first = chance.byte();
        let count = 1 + chance.below(slots + 4);
        let pages = (0..count)
            .map(|k| Page {
                number: first.wrapping_add(3 * k as u8),
                version: chance.byte(),
                text: text(&mut chance),
            })
            .collect();
        let (numbers, letters) = (
            chance.pick(&[0, 5, 20, 100, 400]),
            chance.pick(&[0, 5, 50, 200, 800]),
        );
        let reference = Reference::of_store(&store);
        Broadcast {
            chance,
            pages,
            sent: Vec::new(),
            numbers,
            letters,
            store,
            reference,
        }
    }

    /// The next line that is sent: row by row over the pages; now and then a page has a new version.
    fn send(&mut self) -> Sent {
        let (k, count) = (self.sent.len(), self.pages.len());
        let page = &mut self.pages[k % count];
        if self.chance.below(400) == 0 {
            page.version = page.version.wrapping_add(1 + self.chance.below(3) as u8);
            page.text = text(&mut self.chance);
        }
        let row = k / count % ROWS;
        let sent = Sent {
            page: page.number,
            version: page.version,
            row: row as u8,
            letters: page.text[row],
        };
        self.sent.push(sent);
        sent
    }

    /// A line that was sent, the newest mostly, or one that comes late or once more.
    fn next(&mut self) -> Sent {
        let newest = self.send();
        if self.chance.happens(100) {
            let back = self.chance.below(self.sent.len().min(300));
            return self.sent[self.sent.len() - 1 - back];
        }
        newest
    }

    /// A line as it comes, and what the reference answers to it.
    fn come(&mut self) -> ([u8; LINE], Answer) {
        let sent = self.next();
        if !self.chance.happens(50) {
            let came: Came = damage_within(&mut self.chance, &sent, self.numbers, self.letters);
            return (came.bytes, self.reference.told(&sent, &came));
        }
        let mut bytes = sent.bytes();
        let any = self.chance.below(3);
        for byte in &mut bytes {
            match any {
                0 => {
                    *byte ^= if self.chance.happens(60) {
                        self.chance.byte()
                    } else {
                        0
                    }
                }
                1 => {
                    *byte ^= if self.chance.happens(100) {
                        let bits = 3 + self.chance.below(6) as u32;
                        bits_of(&mut self.chance, bits)
                    } else {
                        0
                    }
                }
                _ => *byte = self.chance.byte(),
            }
        }
        (bytes, self.reference.untold(&bytes))
    }

    fn one_line(&mut self, tally: &mut Tally) -> Result<(), String> {
        let (bytes, answer) = self.come();
        same(
            "the answer",
            library::take_line(&bytes, &mut self.store),
            answer as u64,
        )?;
        same("the store", self.reference.stands_in(&self.store), true)?;
        match answer {
            Answer::Took => tally.took += 1,
            Answer::Lost => tally.lost += 1,
            Answer::Full => tally.full += 1,
        }
        tally.lines += 1;
        Ok(())
    }

    /// A line of another length in between.
    fn other_length(&mut self, tally: &mut Tally) -> Result<(), String> {
        let length = self.chance.below(101);
        let bytes: Vec<u8> = (0..length).map(|_| self.chance.byte()).collect();
        if length != LINE {
            same(
                "the answer to another length",
                library::take_line(&bytes, &mut self.store),
                3,
            )?;
            same(
                "its place",
                library::refusal_place(&bytes, &self.store),
                Some(length as u64),
            )?;
            same("the store", self.reference.stands_in(&self.store), true)?;
            tally.refused += 1;
        }
        Ok(())
    }

    /// A batch of lines laid end to end.
    fn many_lines(&mut self, tally: &mut Tally) -> Result<(), String> {
        let (mut lines, mut counts, mut expected) =
            (Vec::new(), Counts::default(), Counts::default());
        for _ in 0..self.chance.below(120) {
            let (bytes, answer) = self.come();
            lines.extend(bytes);
            expected.lost += u64::from(answer == Answer::Lost);
            expected.full += u64::from(answer == Answer::Full);
            tally.lines += 1;
        }
        same(
            "the answer to a batch",
            library::take_lines(&lines, &mut self.store, &mut counts),
            0,
        )?;
        same("its counts", counts, expected)?;
        same("the store", self.reference.stands_in(&self.store), true)?;
        tally.batches += 1;
        Ok(())
    }

    /// A row and the version of some page, which may not be there.
    fn ask(&mut self, tally: &mut Tally) -> Result<(), String> {
        let known = self.chance.below(self.pages.len());
        let page = self.chance.pick(&[
            self.pages[known].number.into(),
            0,
            255,
            256,
            u64::MAX,
            256 + u64::from(self.pages[known].number),
        ]);
        let row = self.chance.pick(&[0, 1, 12, 24, 25, 26, u64::MAX]);
        let expected = self.reference.row(page, row);
        let got = library::row(&self.store, page, row);
        same(
            "the place of a row",
            got,
            expected.map(|(place, letters)| (place, letters.len())),
        )?;
        if let (Some((place, length)), Some((_, letters))) = (got, expected) {
            same("a row", &self.store[place..place + length], letters)?;
        }
        same(
            "the version",
            library::version(&self.store, page),
            self.reference.version(page),
        )?;
        same(
            "the place of no refusal",
            library::refusal_place(&[0; LINE], &self.store),
            None,
        )?;
        tally.rows += 1;
        Ok(())
    }

    fn step(&mut self, tally: &mut Tally) -> Result<(), String> {
        match self.chance.below(1000) {
            0..20 => self.other_length(tally),
            20..25 => self.many_lines(tally),
            25..125 => self.ask(tally),
            _ => self.one_line(tally),
        }
    }
}

pub fn run(seed: u64, lines: u64) -> Outcome {
    let mut tally = Tally::default();
    let mut number = 0;
    while tally.lines < lines {
        let mut broadcast = Broadcast::begin(seed.wrapping_mul(1_000_003).wrapping_add(number));
        let end = tally.lines + LINES_OF_A_BROADCAST;
        while tally.lines < end {
            broadcast.step(&mut tally).map_err(|difference| {
                format!("broadcast {number}, line {}: {difference}", tally.lines)
            })?;
        }
        number += 1;
    }
    Ok(format!(
        "{} lines in {number} broadcasts: singly {} taken, {} lost, {} without room, {} turned away; {} batches, {} rows asked for; all the same",
        tally.lines, tally.took, tally.lost, tally.full, tally.refused, tally.batches, tally.rows
    ))
}
