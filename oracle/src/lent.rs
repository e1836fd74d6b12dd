//! Words that are lent to the library, filled with a pattern and with guards on both sides.

/// Words on each side of the lent ones, which nobody may touch.
const GUARD: usize = 16;

pub trait Word: Copy + Eq + Into<u64> {
    /// A word that differs from its neighbours and that no answer has by chance.
    fn pattern(index: usize, salt: usize) -> Self;
}

impl Word for u8 {
    /// A byte has too few values to be told from every answer, so the top bit, which few bytes of a result have, must do.
    fn pattern(index: usize, salt: usize) -> Self {
        0x80 | (salt + 37 * index) as u8 & 0x7f
    }
}

impl Word for u32 {
    /// The top bits are no shape.
    fn pattern(index: usize, salt: usize) -> Self {
        0xa500_0000 | (salt + 257 * index) as u32 & 0xff_ffff
    }
}

impl Word for u64 {
    fn pattern(index: usize, salt: usize) -> Self {
        0xa5a5_5a5a_0000_0000 | u64::from(u32::pattern(index, salt))
    }
}

pub struct Lent<W> {
    words: Vec<W>,
    salt: usize,
    guard: usize,
}

/// A word that is not as it must be, counted from the first lent one.
#[derive(Clone, Copy, Debug, PartialEq, Eq)]
pub struct WrongWord {
    pub index: isize,
    pub expected: u64,
    pub given: u64,
}

impl<W: Word> Lent<W> {
    pub fn new(length: usize, salt: usize) -> Self {
        Self::guarded(length, salt, GUARD)
    }

    /// Without guards, so that the words are an allocation of their own and a memory checker sees a step past either end.
    pub fn bare(length: usize, salt: usize) -> Self {
        Self::guarded(length, salt, 0)
    }

    fn guarded(length: usize, salt: usize, guard: usize) -> Self {
        let mut words = Vec::with_capacity(length + 2 * guard);
        words.extend((0..length + 2 * guard).map(|index| W::pattern(index, salt)));
        Self { words, salt, guard }
    }

    pub fn lend(&mut self) -> &mut [W] {
        let end = self.words.len() - self.guard;
        &mut self.words[self.guard..end]
    }

    /// The first wrong word. The needed words must be the expected ones, or as found where nothing is expected of them;
    /// all words after them and both guards must be as found.
    pub fn wrong_word(&self, expected: Option<&[W]>) -> Option<WrongWord> {
        self.words.iter().enumerate().find_map(|(index, &given)| {
            let needed = expected.and_then(|words| words.get(index.wrapping_sub(self.guard)));
            let right = needed.copied().unwrap_or_else(|| W::pattern(index, self.salt));
            (given != right).then(|| WrongWord {
                index: index as isize - self.guard as isize,
                expected: right.into(),
                given: given.into(),
            })
        })
    }
}
