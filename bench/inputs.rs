//! The inputs: the same as those of `crates/compact_bench`, by the same generator.

/// The kinds of characters: ASCII, characters of two, three or four bytes, or half ASCII and half others.
pub const KINDS: [&str; 5] = ["ascii", "two", "three", "four", "mixed"];
pub const LETTERS: u32 = 0;
pub const MIXED: u32 = 4;

/// An xorshift generator.
pub struct Generator {
    state: u64,
}

impl Generator {
    pub fn new() -> Self {
        Generator {
            state: 0x9e37_79b9_7f4a_7c15,
        }
    }

    pub fn next(&mut self) -> u64 {
        self.state ^= self.state << 13;
        self.state ^= self.state >> 7;
        self.state ^= self.state << 17;
        self.state
    }

    /// Draws a number below `limit`.
    pub fn below(&mut self, limit: u32) -> u32 {
        (((self.next() >> 32) * u64::from(limit)) >> 32) as u32
    }

    fn character(&mut self, kind: u32) -> char {
        match kind {
            LETTERS => nth(LETTERS, self.below(26)),
            MIXED => match self.below(8) {
                0..=3 => nth(LETTERS, self.below(26)),
                4 => 'ä',
                5 => 'Σ',
                6 => '€',
                _ => '𝄞',
            },
            _ => nth(kind, self.below(32)),
        }
    }

    /// Draws a text of `len` bytes; where no character of its kind fits any more it ends in a's.
    pub fn text(&mut self, kind: u32, len: u32) -> String {
        let (len, width) = (len as usize, kind.min(3) as usize + 1);
        let mut text = String::with_capacity(len);
        while text.len() + width <= len {
            text.push(self.character(kind));
        }
        while text.len() < len {
            text.push('a');
        }
        text
    }

    /// Draws texts of `least` bytes and less than `span` more; of mixed characters all have `least`.
    pub fn texts(&mut self, kind: u32, count: usize, least: u32, span: u32) -> Vec<String> {
        let draw = |_| {
            let more = if kind == MIXED { 0 } else { self.below(span) };
            self.text(kind, least + more)
        };
        (0..count).map(draw).collect()
    }
}

/// Returns the character at an index of those of a kind; of the mixed ones it has two bytes.
pub fn nth(kind: u32, index: u32) -> char {
    let first = [0x61, 0x430, 0x4e00, 0x1f600, 0xe4][kind as usize];
    char::from_u32(first + index).expect("a character")
}

pub fn alphabet(kind: u32) -> Vec<char> {
    (0..26).map(|index| nth(kind, index)).collect()
}

pub fn words(count: usize, least: u32, span: u32) -> Vec<String> {
    Generator::new().texts(LETTERS, count, least, span)
}

/// Draws texts of a kind and a length: 64, or 16 of a thousand bytes or more.
pub fn alike(kind: u32, len: u32) -> Vec<String> {
    let count = if len < 1000 { 64 } else { 16 };
    Generator::new().texts(kind, count, len, 1)
}

pub fn one(kind: u32, len: u32) -> Vec<String> {
    vec![Generator::new().text(kind, len)]
}

/// Draws 16 texts of 1024 bytes of mixed characters.
pub fn mixed() -> Vec<String> {
    Generator::new().texts(MIXED, 16, 1024, 1)
}

/// A text, a range between characters in it, and a text for that range.
pub struct Cut {
    pub text: String,
    pub first: usize,
    pub last: usize,
    pub piece: String,
}

/// Cuts each text at two hundredths of its length. The piece is from the third to the fourth.
pub fn cuts(texts: Vec<String>, at: [usize; 4]) -> Vec<Cut> {
    let cut = |text: String| {
        let [first, last, from, to] = at.map(|hundredths| text.floor_char_boundary(text.len() * hundredths / 100));
        let piece = text[from..to].to_string();
        Cut {
            text,
            first,
            last,
            piece,
        }
    };
    texts.into_iter().map(cut).collect()
}

pub fn rows(texts: Vec<String>) -> Vec<Vec<u8>> {
    texts.into_iter().map(String::into_bytes).collect()
}

/// The bytes of the texts, with FF at each 64th byte, from index `first` on.
pub fn faulty_rows(texts: Vec<String>, first: usize) -> Vec<Vec<u8>> {
    let mut rows = rows(texts);
    for row in &mut rows {
        let places = row.iter_mut().skip(first).step_by(64);
        places.for_each(|byte| *byte = 0xFF);
    }
    rows
}

pub fn units(texts: Vec<String>) -> Vec<Vec<u16>> {
    let units = |text: &String| text.encode_utf16().collect();
    texts.iter().map(units).collect()
}

/// The units as bytes, in one of the two orders.
pub fn unit_bytes(texts: Vec<String>, order: fn(u16) -> [u8; 2]) -> Vec<Vec<u8>> {
    let bytes = |row: Vec<u16>| row.into_iter().flat_map(order).collect();
    units(texts).into_iter().map(bytes).collect()
}

/// Numbers of 1 to 64 bits, each length about equally often.
pub fn shifted_numbers() -> Vec<u64> {
    let mut generator = Generator::new();
    let mut draw = || {
        let number = generator.next();
        number >> generator.below(64)
    };
    (0..4096).map(|_| draw()).collect()
}

/// Numbers of 1 to 20 digits, each length about equally often.
pub fn numbers() -> Vec<u64> {
    let mut generator = Generator::new();
    let mut draw = || {
        let least = 10u64.pow(generator.below(20));
        let most = least.saturating_mul(9).min(u64::MAX - least);
        least.wrapping_add(generator.next() % most)
    };
    (0..4096).map(|_| draw()).collect()
}

/// Returns a text of 1 MiB: words of 1 to 12 letters, separated by white space, with some marks, numbers, and words
/// with ä.
pub fn prose() -> String {
    let mut generator = Generator::new();
    let words = generator.texts(LETTERS, 4096, 1, 12);
    let mut text = String::with_capacity((1 << 20) + 32);
    while text.len() < 1 << 20 {
        text.push_str(&words[generator.below(4096) as usize]);
        text.push_str(match generator.below(16) {
            0 => ", ",
            1 => ".\n",
            2 => " 1789 ",
            3 => "ä ",
            _ => " ",
        });
    }
    text
}
