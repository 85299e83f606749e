//! Measures the transcription of as many phones as there may be: both sides in turn, again and again, the best time of
//! each.

use crate::builds::{ReadBook, Side};
use crate::measuring::best_of;
use fulgwerz::TranscriptAnswer;
use plain::limits::MOST_SOUNDS;
use plain::random::Random;
use std::time::Duration;

pub struct Transcribed {
    pub answer: TranscriptAnswer,
    pub proved: Duration,
    pub plain: Duration,
}

/// Phones at random between silences, the same in every run.
fn sounds(phones: u32) -> Vec<u32> {
    let mut random = Random::new(1);
    let mut sounds: Vec<u32> = (0..MOST_SOUNDS).map(|_| random.between(1, phones as usize) as u32).collect();
    sounds[0] = 1;
    sounds[MOST_SOUNDS - 1] = 1;
    sounds
}

pub fn measure(book: &ReadBook) -> Transcribed {
    let given = (book, sounds(book.header.phones));
    let mut models = [(); 2].map(|()| vec![u32::MAX; MOST_SOUNDS * book.header.states as usize]);
    let answers = [Side::Proved, Side::Plain].map(|side| transcribe(side, book, &given.1, &mut models[side as usize]));
    assert_eq!(answers[0], answers[1], "the answers differ");
    assert_eq!(answers[0].fault, 0, "the phones are not transcribed");
    assert!(models[0] == models[1], "the models differ");
    let [proved, plain] = best_of(2000, &given, &mut models, |side, (book, sounds), models| {
        transcribe(side, book, sounds, models);
    });
    assert!(models[0] == models[1], "the models differ after the last repetition");
    Transcribed { answer: answers[0], proved, plain }
}

fn transcribe(side: Side, book: &ReadBook, sounds: &[u32], models: &mut [u32]) -> TranscriptAnswer {
    match side {
        Side::Proved => fulgwerz::transcribe(book.header, book.tables(), sounds, models),
        Side::Plain => plain::fast::transcribe(book.header, book.tables(), sounds, models),
    }
}
