//! The rows of the benchmark.

use crate::inputs::*;
use crate::intern::{Names, tokenized};
use std::fmt::Write as _;
use std::hash::{Hash, Hasher};
use std::hint::black_box;
use std::io::{Read, Write as _};

/// The types. This library's is the last.
pub const TYPES: [&str; 4] = ["String", "Rust crate", "kit's String", "CompactString"];
pub const KIT: usize = 2;
pub const OURS: usize = 3;

/// Runs operations over one type, and returns a checksum.
pub type Run = Box<dyn Fn(u64) -> u64>;

/// A call on one kind of texts, or a workload, for each type that has it.
pub struct Row {
    pub call: &'static str,
    pub input: String,
    pub runs: [Option<Run>; 4],
}

impl Row {
    /// The name by which the row is picked.
    pub fn name(&self) -> String {
        format!("{}/{}", self.call, self.input.replace(' ', "/"))
    }
}

fn run(function: impl Fn(u64) -> u64 + 'static) -> Option<Run> {
    Some(Box::new(function))
}

/// Lists a row for each kind and length.
fn each(rows: &mut Vec<Row>, call: &'static str, kinds: &[u32], runs: impl Fn(u32, u32) -> [Option<Run>; 4]) {
    for &kind in kinds {
        for len in [10, 20, 200, 10_000] {
            let input = format!("{} {len}", KINDS[kind as usize]);
            rows.push(Row {
                call,
                input,
                runs: runs(kind, len),
            });
        }
    }
}

/// The kinds for a call that goes character by character, or whose time depends on the bytes; that moves bytes, and may
/// look for boundaries; that only moves bytes.
const ALL: &[u32] = &[0, 1, 2, 3, 4];
const TWO: &[u32] = &[0, 4];
const ASCII: &[u32] = &[0];

/// Declares the C functions, the same over Rust's types, and the rows. What is run over Rust's types is given here, with
/// what `calls.rs` has.
macro_rules! rows {
    ($n:ident $kind:ident $len:ident
     both { $($both:ident $both_kinds:ident = $both_run:expr;)* }
     own { $($own:ident $own_kinds:ident = $own_run:expr;)* }
     workloads { $($workload:ident = $workload_run:expr;)* }) => {
        pub mod library {
            unsafe extern "C" {
                $(#[link_name = concat!("cs_", stringify!($both))]
                pub safe fn $both(n: u64, kit: u32, kind: u32, len: u32) -> u64;)*
                $(#[link_name = concat!("cs_", stringify!($own))]
                pub safe fn $own(n: u64, kind: u32, len: u32) -> u64;)*
            }

            pub mod workloads {
                unsafe extern "C" {
                    $(#[link_name = concat!("cs_bench_", stringify!($workload))]
                    pub safe fn $workload(n: u64) -> u64;)*
                    #[link_name = "cs_bench_size_of_value"]
                    pub safe fn size_of_value() -> u64;
                }
            }
        }

        rows!(over string String: $n $kind $len
            calls { $($both = $both_run;)* $($own = $own_run;)* } workloads { $($workload = $workload_run;)* });
        #[cfg(feature = "peer")]
        rows!(over peer compact_str::CompactString: $n $kind $len
            calls { $($both = $both_run;)* $($own = $own_run;)* } workloads { $($workload = $workload_run;)* });

        pub fn all_rows() -> Vec<Row> {
            let mut rows = Vec::new();
            $(each(&mut rows, stringify!($both), $both_kinds, |kind, len| [
                run(move |n| string::$both(n, kind, len)),
                peer!(move |n| peer::$both(n, kind, len)),
                run(move |n| library::$both(n, 1, kind, len)),
                run(move |n| library::$both(n, 0, kind, len)),
            ]);)*
            $(each(&mut rows, stringify!($own), $own_kinds, |kind, len| [
                run(move |n| string::$own(n, kind, len)),
                peer!(move |n| peer::$own(n, kind, len)),
                None,
                run(move |n| library::$own(n, kind, len)),
            ]);)*
            $(rows.push(Row {
                call: stringify!($workload),
                input: String::new(),
                runs: [
                    run(string::workloads::$workload),
                    peer!(peer::workloads::$workload),
                    None,
                    run(|n| library::workloads::$workload(n)),
                ],
            });)*
            // A `String` is already one.
            for row in rows.iter_mut().filter(|row| row.call == "into_string" && !row.input.is_empty()) {
                row.runs[0] = None;
            }
            rows
        }
    };
    (over $module:ident $type:ty: $n:ident $kind:ident $len:ident
     calls { $($call:ident = $call_run:expr;)* } workloads { $($workload:ident = $workload_run:expr;)* }) => {
        mod $module {
            use super::*;
            use crate::types::$module::*;
            type Text = $type;
            include!("calls.rs");

            $(pub fn $call($n: u64, $kind: u32, $len: u32) -> u64 {
                $call_run
            })*

            pub mod workloads {
                use super::*;

                $(pub fn $workload($n: u64) -> u64 {
                    $workload_run
                })*
            }
        }
    };
}

#[cfg(feature = "peer")]
macro_rules! peer {
    ($run:expr) => {
        run($run)
    };
}
#[cfg(not(feature = "peer"))]
macro_rules! peer {
    ($run:expr) => {
        None
    };
}

rows! {
    n kind len
    both {
        new ASCII = made(n, alike(kind, len));
        clone ASCII = cloned(n, alike(kind, len));
        clone_from ASCII = changing(n, &values(&alike(kind, len)), |value, source| value.clone_from(source));
        push_str ASCII = ringed(n, &alike(kind, len), grown);
        refill ASCII = filling(n, &alike(kind, len), |value, text| value.push_str(text));
        push ALL = filling(n, &alike(kind, len), |value, text| text.chars().for_each(|next| value.push(next)));
        pop ALL = reading(n, &alike(kind, len), popped);
        extend ALL = filling(n, &alike(kind, len), |value, text| value.extend(text.chars()));
        truncate TWO = editing(n, cuts(alike(kind, len), [50, 50, 0, 0]), |value, cut| value.truncate(cut.first));
        write TWO = filling(n, &alike(kind, len), |value, text| writeln!(value, "{}: {}", text, text.len()).expect("room"));
        insert_remove ALL = inserted_removed(n, kind, len);
        insert_str TWO = editing(n, cuts(alike(kind, len), [50, 50, 50, 60]), |value, cut| value.insert_str(cut.first, &cut.piece));
        remove_first ALL = reading(n, &alike(kind, len), removed_first);
        split_off TWO = ringed(n, &cuts(alike(kind, len), [50, 50, 0, 0]), halved);
        replace_shorter TWO = editing(n, cuts(alike(kind, len), [40, 60, 50, 60]), replace);
        replace_equal TWO = editing(n, cuts(alike(kind, len), [40, 60, 40, 60]), replace);
        replace_longer TWO = editing(n, cuts(alike(kind, len), [40, 60, 40, 99]), replace);
        drain ALL = reading(n, &cuts(alike(kind, len), [25, 75, 0, 0]), drained);
        drain_front TWO = editing(n, cuts(alike(kind, len), [0, 25, 0, 0]), drop_drained);
        drain_back TWO = editing(n, cuts(alike(kind, len), [75, 100, 0, 0]), drop_drained);
        retain ALL = retained(n, alike(kind, len), nth(kind, 4));
        change_case TWO = changed(n, &alike(kind, len)[0]);
        collect ALL = changing(n, &alike(kind, len), |value, text| *value = text.chars().collect());
        format TWO = formatted(n, alike(kind, len));
        from_utf8 ALL = ringed(n, &rows(alike(kind, len)), |row| decode(row));
        from_utf8_lossy ALL = ringed(n, &rows(alike(kind, len)), |row| decode_lossy(row));
        from_faulty_utf8 ALL = ringed(n, &faulty_rows(alike(kind, len), 5), |row| decode_lossy(row));
        from_utf16 ALL = ringed(n, &units(alike(kind, len)), |row| decode_units(row));
        from_utf16_lossy ALL = ringed(n, &units(alike(kind, len)), |row| decode_units_lossy(row));
        eq ASCII = equal(n, alike(kind, len));
        cmp ASCII = ordered(n, alike(kind, len));
        hash ASCII = hashed(n, alike(kind, len));
    }
    own {
        extend_texts ASCII = filling(n, &[alike(kind, len)], |value, texts| value.extend(texts.iter().take(8).map(String::as_str)));
        to_lowercase TWO = ringed(n, &values(&alike(kind, len)), lowered);
        join ASCII = ringed(n, &[alike(kind, len)], |texts| joined(&texts[..3]));
        concat ASCII = ringed(n, &[alike(kind, len)], |texts| concatenated(&texts[..3]));
        repeat ASCII = ringed(n, &values(&alike(kind, len)), repeated);
        to_text ASCII = ringed(n, &alike(kind, len), shown);
        from_utf8_buf ALL = ringed(n, &rows(alike(kind, len)), |row| decode_buffers(row.split_at(row.len() / 2)));
        from_utf16le ALL = ringed(n, &unit_bytes(alike(kind, len), u16::to_le_bytes), |row| decode_le(row));
        from_utf16be ALL = ringed(n, &unit_bytes(alike(kind, len), u16::to_be_bytes), |row| decode_be(row));
        from_utf16le_lossy ALL = ringed(n, &unit_bytes(alike(kind, len), u16::to_le_bytes), |row| decode_le_lossy(row));
        into_string ASCII = converted(n, alike(kind, len));
        write_wire ASCII = wired(n, alike(kind, len), true, false);
        read_wire ASCII = wired(n, alike(kind, len), false, true);
    }
    workloads {
        new_short = made(n, words(4096, 0, 25));
        new_long = made(n, words(1024, 25, 176));
        clone_short = cloned(n, words(4096, 0, 25));
        clone_long = cloned(n, words(1024, 25, 176));
        push_build = built(n, words(1024, 1, 16));
        insert_remove_short = inserted_removed(n, LETTERS, 12);
        insert_remove_long = inserted_removed(n, LETTERS, 1000);
        replace_range = replaced(n);
        eq_short = equal(n, words(4096, 0, 25));
        cmp_short = ordered(n, words(4096, 0, 25));
        hash_short = hashed(n, words(4096, 0, 25));
        into_string = converted(n, one(LETTERS, 100_000));
        retain = retained(n, words(16, 200, 1), 'e');
        retain_long = filling(n, &one(LETTERS, 1024), retain_two);
        drain = reading(n, &cuts(words(16, 200, 1), [25, 75, 0, 0]), drained);
        drain_long = reading(n, &cuts(one(LETTERS, 1024), [40, 60, 0, 0]), drained);
        change_letters = changed(n, &one(LETTERS, 1024)[0]);
        utf8_ascii = ringed(n, &rows(words(16, 1024, 1)), |row| decode(row));
        utf8_mixed = ringed(n, &rows(mixed()), |row| decode(row));
        utf8_lossy = ringed(n, &faulty_rows(mixed(), 63), |row| decode_lossy(row));
        utf8_lossy_valid = ringed(n, &rows(mixed()), |row| decode_lossy(row));
        utf16 = ringed(n, &units(mixed()), |row| decode_units(row));
        u64_text = ringed(n, &shifted_numbers(), shown);
        u64_digits = ringed(n, &numbers(), shown);
        format = formatted(n, words(1024, 1, 12));
        wire = wired(n, words(100, 1, 40), true, true);
        collect_chars = changing(n, &one(LETTERS, 1024), |value, text| *value = text.chars().collect());
        join = changing(n, &[words(100, 1, 12)], |value, texts| *value = joined(texts));
        intern = interned(n, 30);
        intern_short = interned(n, 12);
        tokenize = tokens(n, prose());
    }
}
