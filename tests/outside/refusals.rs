//! What is turned away: lines of every length, and stores damaged in every way. The number, the place, and that nothing changed.

use crate::air::{Sent, COLUMNS, LINE, ROWS};
use crate::chance::Chance;
use crate::library::Counts;
use crate::reference::{first_fault, SLOT};
use crate::{library, same, Outcome};

/// A store of so many slots, most of them with a page, each its own.
pub fn random_store(chance: &mut Chance, slots: usize) -> Vec<u8> {
    let mut store = vec![0; SLOT * slots];
    let first = chance.below(256);
    for (k, slot) in store.chunks_mut(SLOT).enumerate() {
        slot[0] = u8::from(chance.below(4) > 0);
        slot[1] = if slot[0] == 1 {
            ((first + 3 * k) % 256) as u8
        } else {
            chance.byte()
        };
        slot[2] = chance.byte();
        for letter in &mut slot[3..] {
            *letter = if chance.below(4) > 0 {
                chance.letter()
            } else {
                0
            };
        }
    }
    store
}

struct Refusals {
    chance: Chance,
    stores: u64,
    calls: u64,
}

impl Refusals {
    /// Lines of lengths that matter, and any line, on a store: each is answered as it must be, and nothing changes if it is turned away.
    fn compare(
        &mut self,
        what: &str,
        store: &mut [u8],
        lengths: impl Iterator<Item = usize>,
    ) -> Result<(), String> {
        let fault = first_fault(store);
        let before = store.to_vec();
        let sent = Sent {
            page: store.get(1).copied().unwrap_or(7),
            version: self.chance.byte(),
            row: 24,
            letters: [b'X'; COLUMNS],
        };
        let bytes: Vec<u8> = sent.bytes().into_iter().cycle().take(200).collect();
        for length in lengths.filter(|&length| length != LINE || fault.is_some()) {
            let what = format!("{what}, a line of {length} bytes");
            let (number, place) = if length == LINE {
                (2, fault)
            } else {
                (1, Some(length as u64))
            };
            same(
                &what,
                library::take_line(&bytes[..length], store),
                2 + number,
            )?;
            same(
                &what,
                library::refusal_place(&bytes[..length], store),
                place,
            )?;
            self.calls += 2;
        }
        self.compare_asked(what, store, fault)?;
        same(&format!("{what}: the store"), store == before, true)?;
        self.stores += 1;
        Ok(())
    }

    /// A batch, rows and versions of a store that is turned away.
    fn compare_asked(
        &mut self,
        what: &str,
        store: &mut [u8],
        fault: Option<u64>,
    ) -> Result<(), String> {
        if fault.is_none() {
            return same(what, library::refusal_place(&[0; LINE], store), None);
        }
        let page = store.get(1).copied().unwrap_or(7).into();
        let mut counts = Counts::default();
        same(
            what,
            library::take_lines(&[21; 2 * LINE], store, &mut counts),
            4,
        )?;
        same(
            what,
            library::take_lines(&[21; 2 * LINE + 1], store, &mut counts),
            3,
        )?;
        same(what, library::take_lines(&[], store, &mut counts), 4)?;
        same(what, counts, Counts::default())?;
        same(
            what,
            library::lines_refusal_place(&[21; 2 * LINE], store),
            fault,
        )?;
        let cut = 2 * LINE + 1;
        same(
            what,
            library::lines_refusal_place(&[21; 2 * LINE + 1], store),
            Some(cut as u64),
        )?;
        same(
            what,
            library::row(store, page, self.chance.below(ROWS) as u64),
            None,
        )?;
        same(what, library::version(store, page), None)?;
        self.calls += 7;
        Ok(())
    }

    /// Every length from 0 to 100, on stores of some numbers of slots.
    fn lengths(&mut self) -> Result<(), String> {
        for slots in [0, 1, 2, 60] {
            let mut store = random_store(&mut self.chance, slots);
            self.compare(&format!("{slots} slots"), &mut store, 0..=100)?;
        }
        Ok(())
    }

    /// Stores of every length that isn't whole slots up to three slots, some more beyond, and stores of more than sixty slots.
    fn cut_stores(&mut self) -> Result<(), String> {
        let long = [
            59 * SLOT + 1,
            60 * SLOT - 1,
            60 * SLOT + 1,
            61 * SLOT - 1,
            61 * SLOT,
            61 * SLOT + 1,
            62 * SLOT,
            70 * SLOT,
        ];
        for length in (1..3 * SLOT)
            .filter(|length| length % SLOT != 0)
            .chain(long)
        {
            let mut store = random_store(&mut self.chance, length.div_ceil(SLOT));
            store.truncate(length);
            self.compare(
                &format!("a store of {length} bytes"),
                &mut store,
                [LINE, 45].into_iter(),
            )?;
        }
        Ok(())
    }

    /// Every mark above 1 and every byte that is no letter, in each slot; the letters' places by chance, the first and the last among them.
    fn bad_bytes(&mut self) -> Result<(), String> {
        for slots in [1, 3, 60] {
            let mut store = random_store(&mut self.chance, slots);
            for at in 0..slots {
                for byte in 0..=255 {
                    let place = match byte % 4 {
                        0 => 3,
                        1 => SLOT - 1,
                        _ => 3 + self.chance.below(1000),
                    };
                    for place in [SLOT * at, SLOT * at + place] {
                        let kept = std::mem::replace(&mut store[place], byte);
                        self.compare(
                            &format!("{slots} slots, {byte} at {place}"),
                            &mut store,
                            [LINE].into_iter(),
                        )?;
                        store[place] = kept;
                    }
                }
            }
        }
        Ok(())
    }

    /// Each two slots with the same page.
    fn same_pages(&mut self) -> Result<(), String> {
        for slots in [2, 5, 60] {
            let mut store = random_store(&mut self.chance, slots);
            for high in 1..slots {
                for low in 0..high {
                    let kept = [SLOT * low, SLOT * high].map(|at| (at, store[at], store[at + 1]));
                    (store[SLOT * low], store[SLOT * high]) = (1, 1);
                    store[SLOT * high + 1] = store[SLOT * low + 1];
                    self.compare(
                        &format!("{slots} slots, {low} and {high} the same"),
                        &mut store,
                        [LINE].into_iter(),
                    )?;
                    for (at, mark, page) in kept {
                        (store[at], store[at + 1]) = (mark, page);
                    }
                }
            }
        }
        Ok(())
    }

    /// Several faults at once: the first slot counts.
    fn several(&mut self) -> Result<(), String> {
        for k in 0..20_000 {
            let slots = 1 + self.chance.below(8);
            let mut store = random_store(&mut self.chance, slots);
            for _ in 0..1 + self.chance.below(4) {
                let slot = SLOT * self.chance.below(slots);
                let place = self.chance.pick(&[0, 1, 1, 3, SLOT - 1, 40]);
                store[slot + place] = if place == 1 {
                    store[SLOT * self.chance.below(slots) + 1]
                } else {
                    self.chance.byte()
                };
            }
            store.truncate(SLOT * slots - self.chance.pick(&[0, 0, 0, 1, 1002]));
            self.compare(
                &format!("store {k} with several faults"),
                &mut store,
                [LINE].into_iter(),
            )?;
        }
        Ok(())
    }
}

pub fn run(seed: u64, _: u64) -> Outcome {
    let mut refusals = Refusals {
        chance: Chance::new(seed),
        stores: 0,
        calls: 0,
    };
    refusals.lengths()?;
    refusals.cut_stores()?;
    refusals.bad_bytes()?;
    refusals.same_pages()?;
    refusals.several()?;
    Ok(format!(
        "{} stores, {} calls",
        refusals.stores, refusals.calls
    ))
}
