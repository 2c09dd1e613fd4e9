//! Lent buffers with guards on both sides. After a call every element is compared, guards included.

use crate::random::Random;
use std::borrow::Cow;
use std::fmt::LowerHex;
use std::sync::OnceLock;

/// Bytes of guard on each side: more than the longest file and the longest sheet.
const GUARD: usize = 2_112;

/// Elements from which guards and junk are cut.
const STOCK: usize = 16_384;

pub trait Element: Copy + PartialEq + LowerHex + 'static {
    fn from_word(word: u64) -> Self;
    fn stock() -> &'static [Self];
    /// How far a buffer may start from an aligned place, in elements.
    const SHIFTS: usize;
}

fn random_elements<T: Element>(len: usize, random: &mut Random) -> Vec<T> {
    (0..len).map(|_| T::from_word(random.word())).collect()
}

impl Element for u64 {
    fn from_word(word: u64) -> Self {
        word
    }

    fn stock() -> &'static [u64] {
        static WORDS: OnceLock<Vec<u64>> = OnceLock::new();
        WORDS.get_or_init(|| random_elements(STOCK, &mut Random::new(64)))
    }

    const SHIFTS: usize = 1;
}

impl Element for u8 {
    fn from_word(word: u64) -> Self {
        (word >> 56) as u8
    }

    fn stock() -> &'static [u8] {
        static BYTES: OnceLock<Vec<u8>> = OnceLock::new();
        BYTES.get_or_init(|| random_elements(STOCK, &mut Random::new(8)))
    }

    const SHIFTS: usize = 8;
}

/// So many random elements, by copying where that is enough.
fn cut<T: Element>(len: usize, random: &mut Random) -> Cow<'static, [T]> {
    if len > STOCK / 2 {
        return Cow::Owned(random_elements(len, random));
    }
    let from = random.below(STOCK - len);
    Cow::Borrowed(&T::stock()[from..from + len])
}

pub struct Lent<T> {
    name: &'static str,
    /// Guards, the lent elements, guards.
    all: Vec<T>,
    before: Vec<T>,
    start: usize,
    len: usize,
    null: bool,
}

impl<T: Element> Lent<T> {
    /// A buffer that holds these elements. An empty one is sometimes lent as the null pointer.
    pub fn holding(name: &'static str, contents: &[T], random: &mut Random) -> Self {
        let guard = GUARD / std::mem::size_of::<T>();
        let start = guard + random.below(T::SHIFTS);
        let mut all = Vec::with_capacity(start + contents.len() + guard);
        all.extend_from_slice(&cut(start, random));
        all.extend_from_slice(contents);
        all.extend_from_slice(&cut(guard, random));
        let null = contents.is_empty() && random.chance(1, 2);
        Lent { name, before: all.clone(), all, start, len: contents.len(), null }
    }

    /// A buffer with random contents.
    pub fn junk(name: &'static str, len: usize, random: &mut Random) -> Self {
        let contents = cut(len, random);
        Lent::holding(name, &contents, random)
    }

    pub fn pointer(&mut self) -> *mut T {
        match self.null {
            true => std::ptr::null_mut(),
            false => self.all.as_mut_ptr().wrapping_add(self.start),
        }
    }

    pub fn len(&self) -> usize {
        self.len
    }

    pub fn contents(&self) -> &[T] {
        &self.all[self.start..self.start + self.len]
    }

    /// What is wrong if the call should have written these elements from the start on and nothing else.
    pub fn differs(&self, written: &[T]) -> Option<String> {
        let end = self.start + written.len();
        let same = self.all[..self.start] == self.before[..self.start]
            && self.all[self.start..end] == *written
            && self.all[end..] == self.before[end..];
        if same {
            return None;
        }
        let expected =
            |at: usize| if at >= self.start && at < end { written[at - self.start] } else { self.before[at] };
        let at = (0..self.all.len()).find(|&at| self.all[at] != expected(at))?;
        let place = if at < self.start {
            format!("the guard {} before it", self.start - at)
        } else if at >= self.start + self.len {
            format!("the guard {} after it", at - self.start - self.len)
        } else {
            format!("element {}", at - self.start)
        };
        Some(format!("lent {}: {place} is {:#x}, should be {:#x}", self.name, self.all[at], expected(at)))
    }

    /// What is wrong if the call should have written nothing.
    pub fn changed(&self) -> Option<String> {
        self.differs(&[])
    }
}
