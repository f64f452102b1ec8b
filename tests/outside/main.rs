//! The outside check: the static library beside an independent receiver, on a million lines of seeded broadcasts with all damage that is allowed,
//! on lines beyond the limits and of every length, and on stores damaged in every way that is turned away. Every answer, number, place and row,
//! and every byte of the store, is compared.
//!
//!     outside [SEED [LINES]]
//!
//! The status is 1 at the first difference, which is said with the seed and the line.

mod air;
mod broadcasts;
mod chance;
mod codes;
mod library;
mod reference;
mod refusals;

use std::process::ExitCode;

/// What was compared, or the first difference.
pub type Outcome = Result<String, String>;

/// A difference, if two things are not the same.
pub fn same<T: PartialEq + std::fmt::Debug>(
    what: &str,
    library: T,
    reference: T,
) -> Result<(), String> {
    if library == reference {
        return Ok(());
    }
    Err(format!(
        "{what}: the library has {library:?}, the reference {reference:?}"
    ))
}

fn main() -> ExitCode {
    let mut words = std::env::args()
        .skip(1)
        .map(|word| word.parse::<u64>().expect("a number"));
    let seed = words.next().unwrap_or(1);
    let lines = words.next().unwrap_or(1_000_000);
    let parts: [(&str, fn(u64, u64) -> Outcome); 3] = [
        ("codes", codes::run),
        ("refusals", refusals::run),
        ("broadcasts", broadcasts::run),
    ];
    for (name, run) in parts {
        match run(seed, lines) {
            Ok(compared) => println!("outside: {name}: {compared}"),
            Err(difference) => {
                println!("outside: {name}: seed {seed}: {difference}");
                return ExitCode::FAILURE;
            }
        }
    }
    ExitCode::SUCCESS
}
