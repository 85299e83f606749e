//! Word books (document 02, P4): reading one, and the test for foreign words.

use crate::buffers::{clear, fill};
use crate::foreign::used_and_zeros;
use crate::limits::*;
use crate::lines::{lines_of, parse, WORD_FORMS};
use crate::refusal::*;
use fulgwerz::{CountAnswer, Words};

/// Reads a word book into a table of words.
pub fn read_words(text: &[u8], table: &mut [u32]) -> CountAnswer {
    match read_phones(text, table.len() / WORD) {
        Ok(words) => {
            fill(table, &record_words(&words));
            CountAnswer { fault: 0, line: 0, count: words.len() }
        }
        Err(Refusal { fault, line }) => {
            clear(table);
            CountAnswer { fault, line, count: 0 }
        }
    }
}

/// The phones of each word; 51 after all lines where there is no room for so many.
fn read_phones(text: &[u8], room: usize) -> Result<Vec<Vec<u32>>, Refusal> {
    let mut words: Vec<Vec<u32>> = Vec::new();
    for (number, line) in (1..).zip(lines_of(text)?) {
        let Some((_, numbers)) = parse(line, WORD_FORMS) else {
            return refuse_line(MISPRINT, number);
        };
        let [word, place, phone] = numbers[..].try_into().expect("three numbers");
        require_line(in_range(word, place, phone), RANGE, number)?;
        require_line(may_come(&words, word as usize, place as usize), ORDER, number)?;
        if place == 1 {
            words.push(Vec::new());
        }
        words.last_mut().expect("a word begins at place 1").push(phone);
    }
    require(words.len() <= room, VOCABULARY)?;
    Ok(words)
}

fn in_range(word: u32, place: u32, phone: u32) -> bool {
    (1..=MOST_WORDS as u32).contains(&word)
        && (1..=MOST_PLACES as u32).contains(&place)
        && (1..=MOST_PHONES).contains(&phone)
}

/// The next place of the last word, or the first place of the next word.
fn may_come(words: &[Vec<u32>], word: usize, place: usize) -> bool {
    let next_place = words.last().is_some_and(|last| (word, place) == (words.len(), last.len() + 1));
    next_place || (word, place) == (words.len() + 1, 1)
}

/// 65 words each: length, phones, then 0.
pub fn record_words(words: &[Vec<u32>]) -> Vec<u32> {
    let record = |phones: &Vec<u32>| {
        let mut record = [0; WORD];
        record[0] = phones.len() as u32;
        record[1..=phones.len()].copy_from_slice(phones);
        record
    };
    words.iter().flat_map(record).collect()
}

/// Words that reading some word book could leave.
pub fn words_known(words: Words) -> bool {
    let Words { count, table } = words;
    (1..=MOST_WORDS).contains(&count)
        && used_and_zeros(table, WORD * count)
        && table.chunks_exact(WORD).take(count).all(word_known)
}

fn word_known(record: &[u32]) -> bool {
    let length = record[0] as usize;
    (1..=MOST_PLACES).contains(&length)
        && record[1..=length].iter().all(|phone| (1..=MOST_PHONES).contains(phone))
        && record[1 + length..].iter().all(|&word| word == 0)
}

/// The phones of each of the known words.
pub fn phones_of(words: Words<'_>) -> Vec<&[u32]> {
    words.table.chunks_exact(WORD).take(words.count).map(|record| &record[1..=record[0] as usize]).collect()
}
