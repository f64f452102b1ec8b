//! The two codes, seen from outside: each of the 256 bytes in each place of a line, against the nearest code word and the parity, and against
//! libzvbi's tables where it is installed.

use crate::air::{Sent, COLUMNS, NUMBERS, ROWS};
use crate::{library, reference, same, Outcome};

/// What the library reads of a number's byte: the number, if a line that has it there is taken. The line is page 1, version 1 and row 1 elsewhere.
fn number_in_library(byte: u8, place: usize) -> Option<u8> {
    let mut store = [0; reference::SLOT];
    let mut line = Sent {
        page: 1,
        version: 1,
        row: 1,
        letters: [b'A'; COLUMNS],
    }
    .bytes();
    line[place] = byte;
    if library::take_line(&line, &mut store) != 0 {
        return None;
    }
    let row = (store[3..]
        .iter()
        .position(|&letter| letter != 0)
        .expect("a row of letters")
        / COLUMNS) as u8;
    let read = [store[1], store[2], row][place / 2];
    Some(if place % 2 == 0 { read / 16 } else { read % 16 })
}

/// What the library reads of a letter's byte: the letter, or none if the place stays as it was.
fn letter_in_library(byte: u8, column: usize) -> Option<u8> {
    let mut store = [0; reference::SLOT];
    let mut line = Sent {
        page: 1,
        version: 1,
        row: 0,
        letters: [b'A'; COLUMNS],
    }
    .bytes();
    line[NUMBERS + column] = byte;
    library::take_line(&line, &mut store);
    Some(store[3 + column]).filter(|&letter| letter != 0)
}

/// Rows from 25 on are no rows, so such a line is lost: as sixteens only 0 and 1 are seen.
fn seen_at(place: usize, number: Option<u8>) -> Option<u8> {
    number.filter(|&n| place != 4 || n < 2)
}

/// Each number as a row: a line of one from 25 on is lost.
fn compare_rows() -> Result<(), String> {
    for row in 0..=255 {
        let line = Sent {
            page: 1,
            version: 1,
            row,
            letters: [b'A'; COLUMNS],
        }
        .bytes();
        let answer = library::take_line(&line, &mut [0; reference::SLOT]);
        same(
            &format!("a line of row {row}"),
            answer,
            u64::from(usize::from(row) >= ROWS),
        )?;
    }
    Ok(())
}

#[cfg(zvbi)]
fn compare_with_zvbi(byte: u8) -> Result<(), String> {
    extern "C" {
        fn outside_unham8(byte: u32) -> i32;
        fn outside_unpar8(byte: u32) -> i32;
    }
    let (number, letter) = unsafe { (outside_unham8(byte.into()), outside_unpar8(byte.into())) };
    same(
        &format!("vbi_unham8 of {byte}"),
        number_in_library(byte, 0),
        u8::try_from(number).ok(),
    )?;
    same(
        &format!("vbi_unpar8 of {byte}"),
        letter_in_library(byte, 0),
        u8::try_from(letter).ok().filter(|&letter| letter >= 32),
    )
}

#[cfg(not(zvbi))]
fn compare_with_zvbi(_: u8) -> Result<(), String> {
    Ok(())
}

pub fn run(_: u64, _: u64) -> Outcome {
    compare_rows()?;
    for byte in 0..=255 {
        for place in 0..NUMBERS {
            let what = format!("byte {byte} as number {place}");
            same(
                &what,
                number_in_library(byte, place),
                seen_at(place, reference::number(byte)),
            )?;
        }
        for column in 0..COLUMNS {
            let what = format!("byte {byte} as letter {column}");
            same(
                &what,
                letter_in_library(byte, column),
                reference::letter(byte),
            )?;
        }
        compare_with_zvbi(byte)?;
    }
    let zvbi = if cfg!(zvbi) {
        "with libzvbi too"
    } else {
        "libzvbi is not installed"
    };
    Ok(format!("256 bytes in 46 places and as rows, {zvbi}"))
}
