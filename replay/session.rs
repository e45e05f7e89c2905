//! One value of the Rust crate, edited by lines.

use compact_str::CompactString;
use std::io::{self, Write};
use zeroize::Zeroize;

/// The capacity from which the crate is not called: no machine has as much memory, so allocation must fail, and past
/// 2^56 - 2 bytes the crate itself relies on a wrong assumption.
const TOO_MUCH: usize = 1 << 55;

/// The text of the command `static`.
const LASTING: &str = "aaaaaaaaaaaaaaaaaaaaaaaaaaaaaa";

pub struct Session {
    value: CompactString,
}

/// The rest of a line, after the words already read.
#[derive(Clone, Copy)]
struct Rest<'a>(Option<&'a str>);

impl<'a> Rest<'a> {
    /// Splits at the next space.
    fn word(self) -> Option<(&'a str, Rest<'a>)> {
        let text = self.0?;
        Some(match text.split_once(' ') {
            Some((word, rest)) => (word, Rest(Some(rest))),
            None => (text, Rest(None)),
        })
    }

    /// Returns all of it, perhaps nothing.
    fn text(self) -> &'a str {
        self.0.unwrap_or("")
    }

    /// Parses it as one character.
    fn character(self) -> Option<char> {
        let mut characters = self.text().chars();
        let character = characters.next()?;
        characters.next().is_none().then_some(character)
    }

    /// Parses it as a number.
    fn number(self) -> Option<usize> {
        digits(self.0?)
    }

    /// Requires nothing, not even a space.
    fn nothing(self) -> Option<()> {
        self.0.is_none().then_some(())
    }
}

fn digits(word: &str) -> Option<usize> {
    let is_number = !word.is_empty() && word.bytes().all(|byte| byte.is_ascii_digit());
    if is_number { word.parse().ok() } else { None }
}

/// Parses an end of a range: a number, or `None` for an end of the text.
fn bound(word: &str) -> Option<Option<usize>> {
    if word == "-" {
        Some(None)
    } else {
        digits(word).map(Some)
    }
}

impl Session {
    pub fn new() -> Self {
        Session { value: CompactString::default() }
    }

    pub fn text(&self) -> &str {
        &self.value
    }

    /// Runs a line, and writes its result and the value.
    pub fn answer(&mut self, line: &[u8], output: &mut impl Write) -> io::Result<()> {
        let Some(answer) = str::from_utf8(line).ok().and_then(|line| self.execute(line)) else {
            return output.write_all(b"?\n");
        };
        let place = if self.value.is_heap_allocated() {
            "heap"
        } else if self.value.as_static_str().is_some() {
            "static"
        } else {
            "inline"
        };
        let (len, capacity) = (self.value.len(), self.value.capacity());
        writeln!(output, "{answer}\n{place} {len} {capacity} {}", self.value)
    }

    /// Runs a line, and returns its result, or `None` if it is no command.
    fn execute(&mut self, line: &str) -> Option<String> {
        let (name, rest) = Rest(Some(line)).word()?;
        match name {
            "new" => self.value = CompactString::new(rest.text()),
            "clonefrom" => self.value.clone_from(&CompactString::new(rest.text())),
            "pushstr" => self.value.push_str(rest.text()),
            "push" => self.value.push(rest.character()?),
            "retain" => self.retain(rest.text())?,
            "cap" | "reserve" | "shrinkto" | "repeat" => return self.sized(name, rest.number()?),
            "insert" | "insertstr" | "remove" | "truncate" | "splitoff" => {
                return self.at_position(name, rest);
            }
            "replace" | "drain" => return self.over_range(name, rest),
            _ => {
                rest.nothing()?;
                return self.alone(name);
            }
        }
        Some("done".into())
    }

    fn retain(&mut self, bits: &str) -> Option<()> {
        if bits.bytes().any(|bit| !matches!(bit, b'0' | b'1')) {
            return None;
        }
        let mut kept = bits.bytes().map(|bit| bit == b'1');
        self.value.retain(|_| kept.next().unwrap_or(true));
        Some(())
    }

    /// Runs a command of one word.
    fn alone(&mut self, name: &str) -> Option<String> {
        match name {
            "static" => self.value = CompactString::const_new(LASTING),
            "clear" => self.value.clear(),
            "shrinktofit" => self.value.shrink_to_fit(),
            "lower" => self.value.make_ascii_lowercase(),
            "upper" => self.value.make_ascii_uppercase(),
            "zeroize" => self.value.zeroize(),
            "pop" => {
                let taken = self.value.pop();
                return Some(taken.map_or("none".into(), |taken| format!("char {taken}")));
            }
            _ => return None,
        }
        Some("done".into())
    }

    /// Runs a command with a number of bytes or of repetitions.
    fn sized(&mut self, name: &str, number: usize) -> Option<String> {
        let is_granted = match name {
            "cap" if number < TOO_MUCH => {
                let made = CompactString::try_with_capacity(number);
                made.map(|value| self.value = value).is_ok()
            }
            "reserve" if number < TOO_MUCH => self.value.try_reserve(number).is_ok(),
            "shrinkto" => {
                self.value.shrink_to(number);
                true
            }
            "repeat" if self.value.len().checked_mul(number).is_some_and(|len| len < TOO_MUCH) => {
                return Some(format!("text {}", self.value.repeat(number)));
            }
            _ => false,
        };
        Some(if is_granted { "done".into() } else { "refused".into() })
    }

    /// Runs a command with a position.
    fn at_position(&mut self, name: &str, rest: Rest<'_>) -> Option<String> {
        let (word, rest) = rest.word()?;
        let at = digits(word)?;
        let (is_boundary, len) = (self.value.is_char_boundary(at), self.value.len());
        match name {
            "insert" => {
                let character = rest.character()?;
                if is_boundary {
                    self.value.insert(at, character);
                    return Some("done".into());
                }
            }
            "insertstr" => {
                if is_boundary {
                    self.value.insert_str(at, rest.text());
                    return Some("done".into());
                }
            }
            "remove" => {
                rest.nothing()?;
                if is_boundary && at < len {
                    return Some(format!("char {}", self.value.remove(at)));
                }
            }
            "truncate" => {
                rest.nothing()?;
                if is_boundary || at >= len {
                    self.value.truncate(at);
                    return Some("done".into());
                }
            }
            _ => {
                rest.nothing()?;
                if is_boundary {
                    return Some(format!("text {}", self.value.split_off(at)));
                }
            }
        }
        Some("bad position".into())
    }

    /// Runs a command with a range.
    fn over_range(&mut self, name: &str, rest: Rest<'_>) -> Option<String> {
        let (start, rest) = rest.word()?;
        let (end, rest) = rest.word()?;
        let (start, end) = (bound(start)?, bound(end)?);
        if name == "drain" {
            rest.nothing()?;
        }
        let range = start.unwrap_or(0)..end.unwrap_or(self.value.len());
        if self.value.get(range.clone()).is_none() {
            return Some("bad position".into());
        }
        if name == "drain" {
            return Some(format!("text {}", self.value.drain(range).collect::<String>()));
        }
        self.value.replace_range(range, rest.text());
        Some("done".into())
    }
}
