// What the rows of `table.rs` call, over `Text`, a type of Rust: each function does `n` operations on its inputs and returns
// a checksum, as the functions of `crates/compact_bench` do. `table.rs` includes this file once for each type.

/// Mixes a number into `sum`.
fn mix(sum: u64, number: u64) -> u64 {
    sum.wrapping_mul(31).wrapping_add(number)
}

/// Returns 256 times the length of a text plus its last byte, or 0 if it is empty.
fn probe(value: &Text) -> u64 {
    let last = value.as_bytes().last().map_or(0, |&byte| u64::from(byte));
    value.len() as u64 * 256 + last
}

/// Stores what is made of each input in turn in a ring of the latest 64 values, and mixes an earlier one into the sum.
///
/// The length of the ring is in its type, so that no index is checked. This library proves that.
fn ringed<I>(n: u64, inputs: &[I], made: impl Fn(&I) -> Text) -> u64 {
    let mut values: [Text; 64] = std::array::from_fn(|_| Text::from(""));
    let mut sum = 0;
    for (at, input) in inputs.iter().cycle().take(n as usize).enumerate() {
        values[at % 64] = made(black_box(input));
        sum = mix(sum, probe(&values[(at + 57) % 64]));
    }
    sum
}

/// Changes one value for each input in turn, and adds what is read of it to the sum.
fn reading<I>(n: u64, inputs: &[I], read: impl Fn(&mut Text, &I) -> u64) -> u64 {
    let mut value = Text::from("");
    inputs.iter().cycle().take(n as usize).fold(0u64, |sum, input| {
        let sum = sum.wrapping_add(read(&mut value, black_box(input)));
        mix(sum, probe(&value))
    })
}

/// Changes one value for each input in turn.
fn changing<I>(n: u64, inputs: &[I], change: impl Fn(&mut Text, &I)) -> u64 {
    reading(n, inputs, |value, input| {
        change(value, input);
        0
    })
}

/// The same, with the value cleared before.
fn filling<I>(n: u64, inputs: &[I], change: impl Fn(&mut Text, &I)) -> u64 {
    changing(n, inputs, |value, input| {
        value.clear();
        change(value, input);
    })
}

/// The same, with the text of a cut appended before.
fn editing(n: u64, cuts: Vec<Cut>, edit: impl Fn(&mut Text, &Cut)) -> u64 {
    filling(n, &cuts, |value, cut| {
        value.push_str(&cut.text);
        edit(value, cut);
    })
}

fn values(texts: &[String]) -> Vec<Text> {
    texts.iter().map(|text| Text::from(text.as_str())).collect()
}

fn made(n: u64, texts: Vec<String>) -> u64 {
    ringed(n, &texts, |text| Text::from(text.as_str()))
}

fn cloned(n: u64, texts: Vec<String>) -> u64 {
    ringed(n, &values(&texts), Text::clone)
}

fn grown(text: &String) -> Text {
    let mut value = Text::from("");
    (0..4).for_each(|_| value.push_str(text));
    value
}

fn built(n: u64, texts: Vec<String>) -> u64 {
    let mut value = Text::from("");
    let mut sum = 0;
    for text in texts.iter().cycle().take(n as usize) {
        if value.len() >= 1_000_000 {
            sum = mix(sum, probe(&value));
            value = Text::from("");
        }
        value.push_str(black_box(text));
    }
    mix(sum, probe(&value))
}

fn popped(value: &mut Text, text: &String) -> u64 {
    value.push_str(text);
    std::iter::from_fn(|| value.pop()).map(u64::from).sum()
}

fn inserted_removed(n: u64, kind: u32, len: u32) -> u64 {
    let mut sum = 0;
    for cut in cuts(one(kind, len), [50, 50, 0, 0]) {
        let mut value = Text::from(cut.text.as_str());
        for character in alphabet(kind).iter().cycle().take(n as usize) {
            value.insert(cut.first, *character);
            sum = mix(sum, u64::from(value.remove(cut.first)));
        }
        sum = mix(sum, probe(&value));
    }
    sum
}

fn halved(cut: &Cut) -> Text {
    Text::from(cut.text.as_str()).split_off(cut.first)
}

fn replace(value: &mut Text, cut: &Cut) {
    value.replace_range(cut.first..cut.last, &cut.piece);
}

fn drop_drained(value: &mut Text, cut: &Cut) {
    drop(value.drain(cut.first..cut.last));
}

fn removed_first(value: &mut Text, text: &String) -> u64 {
    value.clear();
    value.push_str(text);
    let remove = |_| if value.is_empty() { 'a' } else { value.remove(0) };
    (0..8).map(remove).map(u64::from).sum()
}

fn drained(value: &mut Text, cut: &Cut) -> u64 {
    value.clear();
    value.push_str(&cut.text);
    value.drain(cut.first..cut.last).map(u64::from).sum()
}

fn retained(n: u64, texts: Vec<String>, unwanted: char) -> u64 {
    filling(n, &texts, |value, text| {
        value.push_str(text);
        value.retain(|character| character != unwanted);
    })
}

fn retain_two(value: &mut Text, text: &String) {
    value.push_str(text);
    let mut place = 0;
    value.retain(|_| {
        place = if place == 2 { 0 } else { place + 1 };
        place != 0
    });
}

fn replaced(n: u64) -> u64 {
    let mut value = Text::from(one(LETTERS, 200)[0].as_str());
    (0..n).fold(0, |sum, _| {
        value.replace_range(100..104, "abcdefgh");
        value.replace_range(100..108, "wxyz");
        mix(sum, probe(&value))
    })
}

fn changed(n: u64, text: &str) -> u64 {
    let mut value = Text::from(text);
    (0..n).fold(0, |sum, _| {
        value.make_ascii_uppercase();
        let sum = mix(sum, probe(&value));
        value.make_ascii_lowercase();
        mix(sum, probe(&value))
    })
}

fn formatted(n: u64, names: Vec<String>) -> u64 {
    let numbers = numbers().into_iter().map(|number| number % 1_000_000);
    let pairs: Vec<(&String, u64)> = names.iter().zip(numbers).collect();
    ringed(n, &pairs, |(name, number)| shown_pair(name, *number))
}

fn equal(n: u64, texts: Vec<String>) -> u64 {
    let values = values(&texts);
    let other = |i: usize| values[(i + i % 2) % values.len()].clone();
    let others: Vec<Text> = (0..values.len()).map(other).collect();
    let pairs = values.iter().cycle().zip(others.iter().cycle());
    let each = pairs.take(n as usize);
    each.fold(0, |sum, (value, other)| mix(sum, u64::from(black_box(value) == other)))
}

fn ordered(n: u64, texts: Vec<String>) -> u64 {
    let values = values(&texts);
    let pairs = values.iter().cycle().zip(values.iter().cycle().skip(1));
    let each = pairs.take(n as usize);
    each.fold(0, |sum, (value, next)| {
        mix(sum, 1u64.wrapping_add_signed(black_box(value).cmp(next) as i64))
    })
}

/// 64-bit FNV-1a.
struct Fnv(u64);

impl Hasher for Fnv {
    fn finish(&self) -> u64 {
        self.0
    }

    fn write(&mut self, bytes: &[u8]) {
        for byte in bytes {
            self.0 = (self.0 ^ u64::from(*byte)).wrapping_mul(0x100_0000_01b3);
        }
    }
}

fn hashed(n: u64, texts: Vec<String>) -> u64 {
    let values = values(&texts);
    values.iter().cycle().take(n as usize).fold(0, |sum, value| {
        let mut hasher = Fnv(0xcbf2_9ce4_8422_2325);
        black_box(value).hash(&mut hasher);
        mix(sum, hasher.finish())
    })
}

fn converted(n: u64, texts: Vec<String>) -> u64 {
    let mut value = texts.into_iter().next().map(Text::from);
    (0..n).fold(0, |sum, _| {
        let through = value.take().map(through_string);
        value = through;
        mix(sum, value.as_ref().map_or(0, probe))
    })
}

/// Writes each value: its length as four bytes, low byte first, then its bytes.
fn write_all(values: &[Text], bytes: &mut Vec<u8>) {
    bytes.clear();
    for value in values {
        let len = u32::try_from(value.len()).expect("a short text");
        bytes.write_all(&len.to_le_bytes()).expect("room");
        bytes.write_all(value.as_bytes()).expect("room");
    }
}

fn read_all(mut bytes: &[u8], mut sum: u64) -> u64 {
    while !bytes.is_empty() {
        let mut head = [0; 4];
        bytes.read_exact(&mut head).expect("a length");
        let value = read(u32::from_le_bytes(head) as usize, &mut bytes);
        sum = mix(sum, probe(&value));
    }
    sum
}

/// Writes values into a vector, and reads them back, or only the one or the other.
fn wired(n: u64, texts: Vec<String>, writes: bool, reads: bool) -> u64 {
    let values = values(&texts);
    let mut bytes = Vec::new();
    write_all(&values, &mut bytes);
    (0..n).fold(0, |sum, _| {
        if black_box(writes) {
            write_all(&values, &mut bytes);
        }
        if black_box(reads) { read_all(&bytes, sum) } else { sum }
    })
}

/// Interns words drawn from 20,000 of at most `longest` letters.
fn interned(n: u64, longest: u32) -> u64 {
    let mut generator = Generator::new();
    let words = generator.texts(LETTERS, 20_000, 1, longest);
    let mut names = Names::<Text>::new();
    (0..n).fold(0, |sum, _| {
        let word = &words[generator.below(20_000) as usize];
        mix(sum, names.number(Text::from(word.as_str())))
    })
}

fn tokens(n: u64, text: String) -> u64 {
    (0..n).fold(0, |sum, _| {
        let mut names = Names::<Text>::new();
        let tokens = tokenized(&mut names, &text);
        let each = tokens.iter();
        let all = each.fold(sum, |sum, (kind, name)| mix(sum, name * 4 + *kind as u64));
        mix(all, names.len())
    })
}
