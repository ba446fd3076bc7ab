//! The buffers that a call may write, one for each of the two.

/// How many bytes, or words, surround a buffer on each side, so that a write beside it shows.
pub const GUARD: usize = 64;

/// One buffer for each of the two, with its surroundings.
#[derive(Default)]
struct Pair<T> {
    proved: Vec<T>,
    model: Vec<T>,
}

impl<T: Copy + PartialEq> Pair<T> {
    /// A buffer that begins so and goes on in a pattern.
    fn set(&mut self, start: &[T], length: usize, pattern: impl Fn(usize) -> T) {
        self.model.clear();
        let whole = GUARD + length + GUARD;
        self.model.extend((0..whole).map(pattern));
        let start = &start[..start.len().min(length)];
        self.model[GUARD..GUARD + start.len()].copy_from_slice(start);
        self.proved.clone_from(&self.model);
    }

    fn clear(&mut self) {
        self.proved.clear();
        self.model.clear();
    }

    fn lend(&mut self) -> (&mut [T], &mut [T]) {
        let end = self.model.len() - GUARD;
        (&mut self.proved[GUARD..end], &mut self.model[GUARD..end])
    }

    fn same(&self) -> bool {
        self.proved == self.model
    }
}

/// What a call may write.
#[derive(Default)]
pub struct Buffers {
    bytes: Pair<u8>,
    words: Pair<u64>,
}

impl Buffers {
    pub fn clear(&mut self) {
        self.bytes.clear();
        self.words.clear();
    }

    /// Buffers that begin with those bytes.
    pub fn set_bytes(&mut self, start: &[u8], length: usize, pattern: u8) {
        let byte = |at| (at as u8).wrapping_mul(31) ^ pattern;
        self.bytes.set(start, length, byte);
    }

    pub fn set_words(&mut self, length: usize, pattern: u64) {
        let word = |at| (at as u64).wrapping_mul(0x9E37_79B9_7F4A_7C15) ^ pattern;
        self.words.set(&[], length, word);
    }

    /// The proved library's, and the model's.
    pub fn lend_bytes(&mut self) -> (&mut [u8], &mut [u8]) {
        self.bytes.lend()
    }

    /// The proved library's, and the model's.
    pub fn lend_words(&mut self) -> (&mut [u64], &mut [u64]) {
        self.words.lend()
    }

    /// The bytes and words of the proved library, and those of the model.
    pub fn lend_all(&mut self) -> [(&mut [u8], &mut [u64]); 2] {
        let (bytes, model_bytes) = self.bytes.lend();
        let (words, model_words) = self.words.lend();
        [(bytes, words), (model_bytes, model_words)]
    }

    pub fn same(&self) -> bool {
        self.bytes.same() && self.words.same()
    }

    /// The first word in which the two differ, counted from the surroundings on, and what it is in each.
    pub fn first_other_word(&self) -> Option<(usize, u64, u64)> {
        let pairs = self.words.proved.iter().zip(&self.words.model);
        let mut others = pairs
            .enumerate()
            .filter(|(_, (proved, model))| proved != model);
        let (at, (&proved, &model)) = others.next()?;
        Some((at, proved, model))
    }

    /// The area that the model has answered a list of nodes or a row in; nothing behind any other call.
    pub fn area(&self) -> &[u64] {
        let end = self.words.model.len().saturating_sub(GUARD);
        self.words.model.get(GUARD..end).unwrap_or_default()
    }
}
