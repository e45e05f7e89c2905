//! 100,000 random edits of a text of at most 24 bytes by Rust's `String`, as in the test `inline_edits` of
//! `crates/compact_edit_tests`. After each thousand it prints a checksum over all that was seen, and the text.
//! `replay/inline.sh` stores the output.
//!
//! The 24 bytes of a text are those of its definition: a text of 24 bytes fills them; a shorter one is a prefix, and
//! the last byte is 192 plus its length. A wiped text is 23 zeros, and 192.

use std::io::{self, Write};

/// Characters of one to four bytes, most of them of one.
const CHARACTERS: [char; 16] = [
    'a', 'b', 'x', 'A', 'Z', '0', '7', '.', '-', '~', 'ä', '\u{7FF}', '€', '\u{800}', '𝄞', '💖',
];

/// Texts of up to 13 bytes.
const PIECES: [&str; 16] = [
    "", "a", "Bc", "xyz", "0123", "-----", "ä", "€", "𝄞", "äb", "a€", "x𝄞", "abcdefgh", "Ü€𝄞", "ABCDEFGHIJKLM", "€€€€",
];

/// Which characters `retain` keeps.
const ANSWERS: [&[bool]; 4] = [
    &[],
    &[false],
    &[true, false, true],
    &[true, true, true, true, true, false, false, true, false],
];

/// A linear congruential generator; a draw is the high 31 bits.
struct Random {
    state: u64,
}

impl Random {
    fn below(&mut self, bound: usize) -> usize {
        self.state = self.state.wrapping_mul(6364136223846793005).wrapping_add(1442695040888963407);
        (self.state >> 33) as usize % bound
    }

    fn character(&mut self) -> char {
        CHARACTERS[self.below(16)]
    }

    fn piece(&mut self) -> String {
        PIECES[self.below(16)].to_string()
    }

    /// A text that fills up to 22, 23 or 24 bytes.
    fn filling(&mut self, len: usize) -> String {
        "f".repeat((self.below(3) + 22).saturating_sub(len))
    }

    fn place(&mut self, len: usize) -> usize {
        self.below(len + 2)
    }

    fn edit(&mut self, len: usize) -> Edit {
        match self.below(20) {
            0 | 1 => Edit::PushStr(self.character().to_string()),
            2 => Edit::PushStr(self.piece()),
            3 => Edit::PushStr(self.filling(len)),
            4 | 5 => Edit::InsertStr(self.place(len), self.character().to_string()),
            6 => Edit::InsertStr(self.place(len), self.piece()),
            7 => Edit::InsertStr(self.place(len), self.filling(len)),
            8 | 9 | 10 => Edit::Replace(self.place(len), self.place(len), self.piece()),
            11 => Edit::Drain(self.place(len), self.place(len)),
            12 | 13 => Edit::Remove(self.place(len)),
            14 => Edit::Truncate(self.place(len)),
            15 => Edit::SplitOff(self.place(len)),
            16 => Edit::Pop,
            17 => Edit::Retain(ANSWERS[self.below(4)]),
            18 => Edit::Other,
            _ => match self.below(8) {
                0 => Edit::Truncate(0),
                1 => Edit::Wipe,
                2 | 3 => Edit::Lower,
                4 => Edit::Upper,
                5 | 6 => Edit::Nothing,
                _ => Edit::Repeat(self.below(4)),
            },
        }
    }
}

enum Edit {
    PushStr(String),
    InsertStr(usize, String),
    Replace(usize, usize, String),
    Drain(usize, usize),
    Remove(usize),
    Truncate(usize),
    SplitOff(usize),
    Pop,
    Retain(&'static [bool]),
    Other,
    Wipe,
    Lower,
    Upper,
    Nothing,
    Repeat(usize),
}

enum Answer {
    Done,
    Character(Option<char>),
    Text(String),
    BadPosition,
}

/// The greatest length that an edit can lead to.
fn len_after(edit: &Edit, len: usize) -> usize {
    match edit {
        Edit::PushStr(text) | Edit::InsertStr(_, text) => len + text.len(),
        Edit::Replace(start, end, text) => len.saturating_sub(end.saturating_sub(*start)) + text.len(),
        Edit::Repeat(count) => len * count,
        _ => len,
    }
}

fn is_range(text: &str, start: usize, end: usize) -> bool {
    start <= end && text.is_char_boundary(start) && text.is_char_boundary(end)
}

struct Session {
    text: String,
    other: String,
    random: Random,
    checksum: u64,
}

impl Session {
    fn add(&mut self, number: u64) {
        self.checksum = (self.checksum ^ number).wrapping_mul(1099511628211).rotate_left(5);
    }

    fn add_text(&mut self, text: &str) {
        self.add(text.len() as u64);
        for _ in 0..2 {
            for byte in text.bytes() {
                self.add(byte as u64);
            }
        }
        self.add(if text.len() == 24 { text.as_bytes()[23] as u64 } else { 192 + text.len() as u64 });
    }

    fn apply(&mut self, edit: Edit) -> Answer {
        let text = &mut self.text;
        match edit {
            Edit::PushStr(part) => text.push_str(&part),
            Edit::InsertStr(at, part) if text.is_char_boundary(at) => text.insert_str(at, &part),
            Edit::Replace(start, end, part) if is_range(text, start, end) => text.replace_range(start..end, &part),
            Edit::Drain(start, end) if is_range(text, start, end) => return Answer::Text(text.drain(start..end).collect()),
            Edit::Remove(at) if at < text.len() && text.is_char_boundary(at) => {
                return Answer::Character(Some(text.remove(at)));
            }
            Edit::Truncate(len) if len >= text.len() || text.is_char_boundary(len) => text.truncate(len),
            Edit::SplitOff(at) if text.is_char_boundary(at) => return Answer::Text(text.split_off(at)),
            Edit::Pop => return Answer::Character(text.pop()),
            Edit::Retain(answers) => {
                let mut answers = answers.iter();
                text.retain(|_| answers.next().copied().unwrap_or(true));
            }
            Edit::Other => *text = self.other.clone(),
            Edit::Wipe => {
                text.clear();
                for _ in 0..23 {
                    self.add(0);
                }
                self.add(192);
            }
            Edit::Lower => text.make_ascii_lowercase(),
            Edit::Upper => text.make_ascii_uppercase(),
            Edit::Nothing => {}
            Edit::Repeat(count) => return Answer::Text(text.repeat(count)),
            _ => return Answer::BadPosition,
        }
        Answer::Done
    }

    fn step(&mut self) {
        if self.random.below(32) == 2 {
            self.other = self.text.clone();
        }
        let len = self.text.len();
        let mut edit = self.random.edit(len);
        if len_after(&edit, len) > 24 {
            edit = Edit::Pop;
        }
        match self.apply(edit) {
            Answer::Done => self.add(1),
            Answer::Character(None) => self.add(2),
            Answer::Character(Some(character)) => self.add(character as u64),
            Answer::Text(text) => self.add_text(&text),
            Answer::BadPosition => self.add(3),
        }
        let text = self.text.clone();
        self.add_text(&text);
    }
}

fn main() -> io::Result<()> {
    let (text, other) = (String::new(), String::new());
    let mut session = Session { text, other, random: Random { state: 1 }, checksum: 0 };
    let mut output = io::stdout().lock();
    for _ in 0..100 {
        for _ in 0..1000 {
            session.step();
        }
        writeln!(output, "{} {}", session.checksum, session.text)?;
    }
    Ok(())
}
