//! An interner and a tokenizer over Rust's types.

use std::collections::HashMap;
use std::hash::{BuildHasherDefault, Hash, Hasher};

/// The default hasher of this library's kit: multiplies 16 bytes at a time to 128 bits and joins the halves. So the
/// benchmark compares types and tables, not hashers.
pub struct Fold(u64);

const MULTIPLIER: u64 = 0x9e37_79b9_7f4a_7c15;

fn folded(a: u64, b: u64) -> u64 {
    let product = u128::from(a) * u128::from(b);
    product as u64 ^ (product >> 64) as u64
}

fn four(bytes: &[u8], at: usize) -> u64 {
    let row = bytes[at..at + 4].try_into().expect("four bytes");
    u64::from(u32::from_le_bytes(row))
}

fn eight(bytes: &[u8], at: usize) -> u64 {
    u64::from_le_bytes(bytes[at..at + 8].try_into().expect("eight bytes"))
}

/// Reads at most eight bytes as one number.
fn short(bytes: &[u8]) -> u64 {
    let len = bytes.len();
    if len >= 4 {
        four(bytes, 0) | four(bytes, len - 4) << 32
    } else if len > 0 {
        u64::from(bytes[0]) | u64::from(bytes[len / 2]) << 8 | u64::from(bytes[len - 1]) << 16
    } else {
        0
    }
}

impl Default for Fold {
    fn default() -> Self {
        Fold(0x243f_6a88_85a3_08d3)
    }
}

impl Hasher for Fold {
    #[inline]
    fn finish(&self) -> u64 {
        self.0
    }

    #[inline]
    fn write(&mut self, bytes: &[u8]) {
        let len = bytes.len();
        if len <= 8 {
            self.0 = folded(self.0 ^ short(bytes), MULTIPLIER ^ (2 * len as u64));
            return;
        }
        let mut state = self.0.wrapping_add(len as u64);
        let mut at = 0;
        while len - at > 16 {
            state = folded(eight(bytes, at) ^ state, eight(bytes, at + 8) ^ MULTIPLIER);
            at += 16;
        }
        let first = eight(bytes, len.saturating_sub(16));
        self.0 = folded(first ^ state, eight(bytes, len - 8) ^ MULTIPLIER);
    }
}

/// The distinct words with their numbers. Std has no ordered set, so no list of the words is kept: less work than an
/// interner does.
pub struct Names<T>(HashMap<T, u64, BuildHasherDefault<Fold>>);

impl<T: Hash + Eq> Names<T> {
    pub fn new() -> Self {
        Names(HashMap::default())
    }

    #[inline]
    pub fn number(&mut self, name: T) -> u64 {
        let next = self.len();
        *self.0.entry(name).or_insert(next)
    }

    pub fn len(&self) -> u64 {
        self.0.len() as u64
    }
}

/// The kind of a token.
#[derive(Clone, Copy, PartialEq, Eq)]
pub enum Kind {
    Word,
    Number,
    Space,
    Mark,
}

fn kind_of(character: char) -> Kind {
    if character.is_alphabetic() {
        Kind::Word
    } else if character.is_numeric() {
        Kind::Number
    } else if character.is_whitespace() {
        Kind::Space
    } else {
        Kind::Mark
    }
}

/// `compact_uses::tokenize` for a type of Rust: the kinds of the tokens and the numbers of their names.
pub fn tokenized<T: for<'a> From<&'a str> + Hash + Eq>(names: &mut Names<T>, text: &str) -> Vec<(Kind, u64)> {
    let mut tokens = Vec::new();
    let mut start = 0;
    let mut kind = Kind::Mark;
    let mut put = |kind, piece: &str| {
        if !piece.is_empty() {
            tokens.push((kind, names.number(T::from(piece))));
        }
    };
    for (at, character) in text.char_indices() {
        let next = kind_of(character);
        if next != kind || kind == Kind::Mark {
            put(kind, &text[start..at]);
            start = at;
            kind = next;
        }
    }
    put(kind, &text[start..]);
    tokens
}
