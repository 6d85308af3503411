//! Judges modules: each line of the input is a module's words in hexadecimal digits, and each line of the output its verdict as
//! `lfiload check` tells it. The code is judged as a whole, and again in pieces, some of which are empty; both have to agree.
//!
//!   echo "d65f03c0 d4000001" | cargo run --example judge -- 1
//!
//! The word is the profile, 1 or 2, 1 without. Other words are a usage error, status 2.

use lfi_verifier::{verify, Profile, Verifier, Violation};
use std::{env, error::Error, io, process::ExitCode};

/// What is found of the code in pieces, from these lengths in turn.
fn in_pieces(code: &[u8], profile: Profile, mut seed: u64) -> Result<(), Violation> {
    let words = u32::try_from(code.len() / 4).map_err(|_| Violation::BadLength)?;
    let (mut verifier, mut left) = (Verifier::new(words, profile)?, code);
    while !left.is_empty() {
        seed = seed.wrapping_mul(6_364_136_223_846_793_005).wrapping_add(1_442_695_040_888_963_407);
        let (piece, rest) = left.split_at(left.len().min(4 * usize::try_from((seed >> 33) % 7).unwrap_or(1)));
        let so_far = verifier.update(piece);
        // Once a word is refused, the others change nothing.
        if so_far.is_err() {
            return verifier.finish();
        }
        left = rest;
    }
    verifier.finish()
}

/// The profile that the words of the command line name.
fn profile_of(given: &[String]) -> Option<Profile> {
    match given {
        [] => Some(Profile::One),
        [number] if number == "1" => Some(Profile::One),
        [number] if number == "2" => Some(Profile::Two),
        _ => None,
    }
}

fn main() -> Result<ExitCode, Box<dyn Error>> {
    let given: Vec<String> = env::args().skip(1).collect();
    let Some(profile) = profile_of(&given) else {
        eprintln!("usage: judge [1 | 2]");
        return Ok(ExitCode::from(2));
    };
    for (number, line) in (1..).zip(io::stdin().lines()) {
        let words: Vec<u32> = line?.split_whitespace().map(|word| u32::from_str_radix(word, 16)).collect::<Result<_, _>>()?;
        let code: Vec<u8> = words.iter().flat_map(|word| word.to_le_bytes()).collect();
        let whole = verify(&code, profile);
        assert_eq!(whole, in_pieces(&code, profile, number), "line {number}");
        match whole {
            Ok(()) => println!("lawful, {} words", words.len()),
            Err(violation) => println!("{violation}"),
        }
    }
    Ok(ExitCode::SUCCESS)
}
