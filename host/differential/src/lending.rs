//! Buffers as they are lent: garbage inside, and words around them that nobody may touch.

use plain::random::Random;

/// So many words stand before a lent part, and after it.
pub const AROUND: usize = 4;

/// What stands in a buffer, of any kind of word.
#[derive(Clone, Debug, PartialEq, Eq)]
pub enum Words {
    Bytes(Vec<u8>),
    Narrow(Vec<u32>),
    Wide(Vec<u64>),
}

impl Words {
    /// The first place where two buffers of the same length differ.
    pub fn first_difference(&self, others: &Words) -> Option<usize> {
        fn first<W: PartialEq>(words: &[W], others: &[W]) -> Option<usize> {
            words.iter().zip(others).position(|(word, other)| word != other)
        }
        match (self, others) {
            (Words::Bytes(words), Words::Bytes(others)) => first(words, others),
            (Words::Narrow(words), Words::Narrow(others)) => first(words, others),
            (Words::Wide(words), Words::Wide(others)) => first(words, others),
            _ => Some(0),
        }
    }

    /// Some words from a place on.
    pub fn from(&self, at: usize) -> String {
        match self {
            Words::Bytes(words) => words[at..].iter().take(64).copied().collect::<Vec<u8>>().escape_ascii().to_string(),
            Words::Narrow(words) => format!("{:?}", &words[at..words.len().min(at + 16)]),
            Words::Wide(words) => format!("{:x?}", &words[at..words.len().min(at + 16)]),
        }
    }
}

pub trait Word: Copy {
    fn from_random(word: u64) -> Self;
    fn words(all: Vec<Self>) -> Words;
}

impl Word for u8 {
    fn from_random(word: u64) -> u8 {
        word as u8
    }

    fn words(all: Vec<u8>) -> Words {
        Words::Bytes(all)
    }
}

impl Word for u32 {
    fn from_random(word: u64) -> u32 {
        word as u32
    }

    fn words(all: Vec<u32>) -> Words {
        Words::Narrow(all)
    }
}

impl Word for u64 {
    fn from_random(word: u64) -> u64 {
        word
    }

    fn words(all: Vec<u64>) -> Words {
        Words::Wide(all)
    }
}

/// A lent part, with the words around it.
pub struct Lent<W> {
    all: Vec<W>,
}

impl<W: Word> Lent<W> {
    /// To be filled: garbage, the same for the same length.
    pub fn garbage(length: usize) -> Lent<W> {
        let mut random = Random::new(length as u64);
        Lent { all: (0..length + 2 * AROUND).map(|_| W::from_random(random.word())).collect() }
    }

    /// To be read.
    pub fn holding(words: &[W]) -> Lent<W> {
        let mut lent = Lent::garbage(words.len());
        lent.part().copy_from_slice(words);
        lent
    }

    pub fn part(&mut self) -> &mut [W] {
        let end = self.all.len() - AROUND;
        &mut self.all[AROUND..end]
    }

    /// The part and what stands around it.
    pub fn left(self) -> Words {
        W::words(self.all)
    }
}
