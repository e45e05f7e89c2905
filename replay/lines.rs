//! Random lines of the program.
//!
//! No line is omitted for a difference between the two libraries: docs/STRING.md lists only other calls, and
//! capacities past the limit, where both fail.

/// Characters of one to four bytes.
const CHARACTERS: [char; 24] = [
    'a', 'b', 'c', 'x', 'y', 'z', 'A', 'Q', 'Z', '0', '7', ' ', '\t', '\r', '-', '\u{7F}', '\u{80}',
    'ä', '\u{7FF}', '\u{800}', '€', '\u{FFFD}', '\u{10000}', '\u{1F496}',
];

/// Lines that are no commands.
const NO_COMMANDS: [&str; 10] = [
    "", " ", "push", "insert 0", "drain 1", "replace 0", "pop now", "reserve -1", "Clear", "retain 012",
];

/// A random generator of Vigna's family splitmix64.
pub struct Generator {
    state: u64,
}

impl Generator {
    pub fn new(seed: u64) -> Self {
        Generator { state: seed }
    }

    fn next(&mut self) -> u64 {
        self.state = self.state.wrapping_add(0x9E37_79B9_7F4A_7C15);
        let mut mixed = self.state;
        mixed = (mixed ^ (mixed >> 30)).wrapping_mul(0xBF58_476D_1CE4_E5B9);
        mixed = (mixed ^ (mixed >> 27)).wrapping_mul(0x94D0_49BB_1331_11EB);
        mixed ^ (mixed >> 31)
    }

    /// A number below `count`.
    fn below(&mut self, count: usize) -> usize {
        (self.next() % count as u64) as usize
    }

    fn character(&mut self) -> char {
        // Half of them have one byte.
        let count = if self.below(2) == 0 { 16 } else { CHARACTERS.len() };
        CHARACTERS[self.below(count)]
    }

    /// A text of few characters, rarely of many.
    fn short_text(&mut self) -> String {
        let most = [1, 3, 6, 13, 30][self.below(5)];
        let count = self.below(most + 1);
        (0..count).map(|_| self.character()).collect()
    }

    /// A text that fills `len` bytes, if shorter, up to a length where a place or a capacity changes.
    fn filling(&mut self, len: usize) -> String {
        let wanted = [23, 24, 25, 31, 32, 33, 36, 37, 48, 49][self.below(10)];
        "f".repeat(usize::saturating_sub(wanted, len))
    }

    fn text(&mut self, len: usize) -> String {
        if self.below(6) == 0 { self.filling(len) } else { self.short_text() }
    }

    /// A position: in the text, perhaps within a character, at its end, or past it.
    fn position(&mut self, len: usize) -> usize {
        match self.below(20) {
            0 => len + 1 + self.below(3),
            1 => usize::MAX,
            2 | 3 => len,
            _ => self.below(len + 1),
        }
    }

    /// Mostly a position where a character begins.
    fn boundary(&mut self, text: &str) -> usize {
        let at = self.position(text.len());
        if self.below(3) == 0 {
            return at;
        }
        (0..=at.min(text.len())).rev().find(|&at| text.is_char_boundary(at)).unwrap_or(0)
    }

    fn bound(&mut self, text: &str) -> String {
        if self.below(6) == 0 { "-".into() } else { self.boundary(text).to_string() }
    }

    /// A number of bytes: around the lengths where a place or a capacity changes, and past the text.
    fn size(&mut self, len: usize) -> usize {
        const SIZES: [usize; 16] = [
            0, 1, 23, 24, 25, 26, 31, 32, 33, 36, 48, 100, 1 << 56, (1 << 56) - 2, (1 << 56) - 1, usize::MAX,
        ];
        if self.below(3) == 0 { len.saturating_sub(8) + self.below(16) } else { SIZES[self.below(16)] }
    }

    fn bits(&mut self, text: &str) -> String {
        let count = text.chars().count() + self.below(3);
        let kept = self.below(4);
        (0..count.saturating_sub(self.below(3)))
            .map(|_| if self.below(4) < kept { '1' } else { '0' })
            .collect()
    }

    /// A line for a value with this text.
    pub fn line(&mut self, text: &str) -> Vec<u8> {
        let len = text.len();
        if len > 120 {
            let at = self.boundary(&text[..text.floor_char_boundary(40)]);
            return format!("truncate {at}").into_bytes();
        }
        let line = match self.below(44) {
            0 | 1 => format!("new {}", self.text(0)),
            2 | 3 => "static".into(),
            4 => format!("cap {}", self.size(len)),
            5..8 => format!("push {}", self.character()),
            8..13 => format!("pushstr {}", self.text(len)),
            13..15 => "pop".into(),
            15..18 => format!("insert {} {}", self.boundary(text), self.character()),
            18..21 => format!("insertstr {} {}", self.boundary(text), self.text(len)),
            21..24 => format!("remove {}", self.boundary(text)),
            24..26 => format!("truncate {}", self.boundary(text)),
            26 => "clear".into(),
            27 => format!("splitoff {}", self.boundary(text)),
            28..32 => {
                let (start, end) = (self.bound(text), self.bound(text));
                format!("replace {start} {end} {}", self.short_text())
            }
            32..34 => format!("drain {} {}", self.bound(text), self.bound(text)),
            34 | 35 => format!("retain {}", self.bits(text)),
            36 => format!("reserve {}", self.size(len)),
            37 => format!("shrinkto {}", self.size(len)),
            38 => "shrinktofit".into(),
            39 => ["lower", "upper", "zeroize"][self.below(3)].into(),
            40 => format!("repeat {}", [0, 1, 2, 3, usize::MAX][self.below(5)]),
            41 | 42 => format!("clonefrom {}", self.text(0)),
            _ => NO_COMMANDS[self.below(10)].into(),
        };
        line.into_bytes()
    }
}
