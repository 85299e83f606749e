//! Lent buffers: what an entry leaves in them.

/// The words, then 0 to the end. The buffer has room for them.
pub fn fill<Word: Copy + Default>(buffer: &mut [Word], words: &[Word]) {
    buffer[..words.len()].copy_from_slice(words);
    buffer[words.len()..].fill(Word::default());
}

pub fn clear<Word: Copy + Default>(buffer: &mut [Word]) {
    buffer.fill(Word::default());
}
