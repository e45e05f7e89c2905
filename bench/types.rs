//! The calls that have another name or form in each of Rust's types.

/// Declares functions.
macro_rules! functions {
    ($type:ty: $($name:ident($($argument:tt: $input:ty),*) = $run:expr;)*) => {
        $(pub fn $name($($argument: $input),*) -> $type {
            $run
        })*
    };
}

/// Reads a text of `len` bytes into a buffer of just that size.
pub fn read_string(len: usize, reader: &mut impl std::io::Read) -> String {
    let mut bytes = vec![0; len];
    reader.read_exact(&mut bytes).expect("the bytes");
    String::from_utf8(bytes).expect("a text")
}

/// Of `String`. Std's own calls for bytes of UTF-16 are unstable, and decode aligned units in place, as here.
pub mod string {
    pub use super::read_string as read;
    use std::fmt::Display;
    use std::hint::black_box;

    functions! { String:
        decode(bytes: &[u8]) = String::from(std::str::from_utf8(bytes).expect("a text"));
        decode_lossy(bytes: &[u8]) = String::from_utf8_lossy(bytes).into_owned();
        decode_buffers(parts: (&[u8], &[u8])) = String::from_utf8([parts.0, parts.1].concat()).expect("a text");
        decode_units(units: &[u16]) = String::from_utf16(units).expect("a text");
        decode_units_lossy(units: &[u16]) = String::from_utf16_lossy(units);
        decode_le(bytes: &[u8]) = String::from_utf16(aligned(bytes)).expect("a text");
        decode_le_lossy(bytes: &[u8]) = String::from_utf16_lossy(aligned(bytes));
        shown(value: &impl Display) = value.to_string();
        shown_pair(name: &str, number: u64) = format!("{}-{}", name, number);
        joined(texts: &[String]) = texts.join(", ");
        concatenated(texts: &[String]) = texts.concat();
        repeated(value: &String) = value.repeat(8);
        lowered(value: &String) = value.to_ascii_lowercase();
        through_string(value: String) = black_box(value);
    }

    pub fn decode_be(bytes: &[u8]) -> String {
        let units = bytes.as_chunks().0.iter().map(|pair| u16::from_be_bytes(*pair));
        char::decode_utf16(units).collect::<Result<_, _>>().expect("a text")
    }

    /// Bytes of a vector as units. Two bytes of any value are a unit.
    fn aligned(bytes: &[u8]) -> &[u16] {
        match unsafe { bytes.align_to() } {
            ([], units, []) => units,
            _ => panic!("bytes that are not aligned"),
        }
    }
}

/// Of the Rust crate's type.
#[cfg(feature = "peer")]
pub mod peer {
    use bytes::Buf;
    use compact_str::{CompactString, CompactStringExt, ToCompactString, format_compact};
    use std::io::Read;

    functions! { CompactString:
        decode(bytes: &[u8]) = CompactString::from_utf8(bytes).expect("a text");
        decode_lossy(bytes: &[u8]) = CompactString::from_utf8_lossy(bytes);
        decode_buffers(parts: (&[u8], &[u8])) = CompactString::from_utf8_buf(&mut Buf::chain(parts.0, parts.1)).expect("a text");
        decode_units(units: &[u16]) = CompactString::from_utf16(units).expect("a text");
        decode_units_lossy(units: &[u16]) = CompactString::from_utf16_lossy(units);
        decode_le(bytes: &[u8]) = CompactString::from_utf16le(bytes).expect("a text");
        decode_le_lossy(bytes: &[u8]) = CompactString::from_utf16le_lossy(bytes);
        decode_be(bytes: &[u8]) = CompactString::from_utf16be(bytes).expect("a text");
        shown(value: &impl ToCompactString) = value.to_compact_string();
        shown_pair(name: &str, number: u64) = format_compact!("{}-{}", name, number);
        joined(texts: &[String]) = texts.iter().join_compact(", ");
        concatenated(texts: &[String]) = texts.iter().concat_compact();
        repeated(value: &CompactString) = value.repeat(8);
        lowered(value: &CompactString) = value.to_ascii_lowercase();
        through_string(value: CompactString) = CompactString::from(value.into_string());
    }

    /// As the crate's own reader of this form: a text that fits inline goes through a fixed buffer.
    pub fn read(len: usize, reader: &mut impl Read) -> CompactString {
        if len > 24 {
            return CompactString::from(super::read_string(len, reader));
        }
        let mut room = [0; 24];
        reader.read_exact(&mut room[..len]).expect("the bytes");
        CompactString::from_utf8(&room[..len]).expect("a text")
    }
}
