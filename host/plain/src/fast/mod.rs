//! The build, the writer of books, the join and the transcription as they are written for speed alone, the yardstick of
//! the benchmark: no proofs, the same answers and words.
//!
//! Metastates are found in a hash map; a turn tries only the combinations of the phones in the shifted centre column,
//! and leaves a meet at its first empty column; a matrix has just the columns of the half-width, known to the compiler.

mod combining;
mod connecting;
mod hashing;
mod joining;
mod leaves;
mod transcribing;
mod writing;

use crate::foreign::{arcs_known, tables_known};
use crate::limits::{ARC, JOINED};
use crate::refusal::{require, Refusal, FOREIGN};
use crate::trees::judge_utterance;
use crate::words::words_known;
use fulgwerz::{
    BuildAnswer, CountAnswer, Counts, Header, JoinAnswer, Joined, Space, Tables, TranscriptAnswer, Words,
};

/// A matrix of W = 2n+1 columns, each a set of phones.
type Matrix<const W: usize> = [u64; W];

/// Builds the network from tables, as `fulgwerz::build` does.
pub fn build(header: Header, tables: Tables, space: Space, turn_limit: u32) -> BuildAnswer {
    let Space { combinations, metastates, arcs } = space;
    combinations.fill(0);
    metastates.fill(0);
    arcs.fill(0);
    if !tables_known(header, tables) {
        return BuildAnswer { fault: FOREIGN, ..BuildAnswer::default() };
    }
    let space = Space { combinations: &mut *combinations, metastates: &mut *metastates, arcs: &mut *arcs };
    let built = match header.half {
        0 => connecting::connect::<1>(header, tables, space, turn_limit),
        1 => connecting::connect::<3>(header, tables, space, turn_limit),
        2 => connecting::connect::<5>(header, tables, space, turn_limit),
        _ => connecting::connect::<7>(header, tables, space, turn_limit),
    };
    built.unwrap_or_else(|Refusal { fault, line }| {
        combinations.fill(0);
        metastates.fill(0);
        arcs.fill(0);
        BuildAnswer { fault, line, ..BuildAnswer::default() }
    })
}

/// The valid combinations of leaves, as `fulgwerz::combine` gives them.
pub fn combine(header: Header, tables: Tables, combinations: &mut [u64]) -> CountAnswer {
    combinations.fill(0);
    if !tables_known(header, tables) {
        return CountAnswer { fault: FOREIGN, ..CountAnswer::default() };
    }
    let counted = match header.half {
        0 => combining::combine::<1>(header, tables, combinations).map(|found| found.matrices.len()),
        1 => combining::combine::<3>(header, tables, combinations).map(|found| found.matrices.len()),
        2 => combining::combine::<5>(header, tables, combinations).map(|found| found.matrices.len()),
        _ => combining::combine::<7>(header, tables, combinations).map(|found| found.matrices.len()),
    };
    match counted {
        Ok(count) => CountAnswer { count, ..CountAnswer::default() },
        Err(Refusal { fault, line }) => {
            combinations.fill(0);
            CountAnswer { fault, line, count: 0 }
        }
    }
}

/// Writes the plain form of the book in the tables, as `fulgwerz::write_book` does.
pub fn write_book(header: Header, tables: Tables, text: &mut [u8]) -> CountAnswer {
    let written = require(tables_known(header, tables), FOREIGN).and_then(|()| writing::write(header, tables, text));
    match written {
        Ok(count) => {
            text[count..].fill(0);
            CountAnswer { count, ..CountAnswer::default() }
        }
        Err(Refusal { fault, line }) => {
            text.fill(0);
            CountAnswer { fault, line, count: 0 }
        }
    }
}

/// Joins a network with the words of a word book, as `fulgwerz::join` does.
pub fn join(counts: Counts, arcs: &[u32], words: Words, space: Joined) -> JoinAnswer {
    let Joined { states, arcs: joined } = space;
    let made = require(arcs_known(counts, arcs) && words_known(words), FOREIGN)
        .and_then(|()| joining::join(counts, arcs, words, Joined { states: &mut *states, arcs: &mut *joined }));
    let (answer, used) = match made {
        Ok((states, arcs)) => (JoinAnswer { states, arcs, ..JoinAnswer::default() }, (states, arcs)),
        Err(Refusal { fault, line }) => (JoinAnswer { fault, line, ..JoinAnswer::default() }, (0, 0)),
    };
    states[JOINED * used.0..].fill(0);
    joined[ARC * used.1..].fill(0);
    answer
}

/// The models of a phone sequence, as `fulgwerz::transcribe` gives them.
pub fn transcribe(header: Header, tables: Tables, phones: &[u32], models: &mut [u32]) -> TranscriptAnswer {
    if let Err(Refusal { fault, line }) = judge_utterance(header, tables, phones, models.len()) {
        models.fill(0);
        return TranscriptAnswer { fault, line, ..TranscriptAnswer::default() };
    }
    let count = phones.len() * header.states as usize;
    let (given, rest) = models.split_at_mut(count);
    rest.fill(0);
    let questions = transcribing::transcribe(header, tables, phones, given);
    TranscriptAnswer { count, questions, ..TranscriptAnswer::default() }
}
