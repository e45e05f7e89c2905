//! The figures as tables of plain text.

use crate::Measured;
use crate::table::library::workloads::size_of_value;
use crate::table::{KIT, OURS, TYPES};
use std::mem::size_of;

/// Aligns rows in columns.
fn columns(rows: &[Vec<String>]) -> String {
    let width = |column: usize| {
        let cells = rows.iter().filter_map(|row| row.get(column));
        cells.map(|cell| cell.chars().count()).max().unwrap_or(0)
    };
    let line = |row: &Vec<String>| {
        let cells = row.iter().enumerate();
        let cells = cells.map(|(column, cell)| format!("{cell:<0$}", width(column)));
        cells.collect::<Vec<_>>().join("  ").trim_end().to_string() + "\n"
    };
    rows.iter().map(line).collect()
}

fn figure(number: Option<f64>) -> String {
    number.map_or(String::from("-"), |number| format!("{number:.2}"))
}

fn name(row: &Measured) -> String {
    format!("{} {}", row.call, row.input).trim_end().to_string()
}

/// The line that is printed after a row is measured.
pub fn line(row: &Measured) -> String {
    let times: Vec<String> = row.times.map(figure).to_vec();
    let differ = if row.agrees { "" } else { ", CHECKSUMS DIFFER" };
    format!(
        "{}: {} ns, to best {:.2}{differ}",
        name(row),
        times.join(", "),
        row.to_best()
    )
}

/// The geometric mean of ratios; those of rows with no other type are 0, and left out.
pub fn mean(ratios: impl Iterator<Item = f64>) -> Option<f64> {
    let logs: Vec<f64> = ratios.filter(|ratio| *ratio > 0.0).map(f64::ln).collect();
    (!logs.is_empty()).then(|| (logs.iter().sum::<f64>() / logs.len() as f64).exp())
}

/// The rows, the slowest beside the best of Rust's types first.
fn times(measured: &[&Measured]) -> String {
    let mut sorted = measured.to_vec();
    sorted.sort_by(|a, b| b.to_best().total_cmp(&a.to_best()));
    let mut rows = vec![vec![String::from("call")]];
    rows[0].extend(TYPES.map(String::from));
    rows[0].extend(["to best", "to kit's"].map(String::from));
    for row in sorted {
        let mut cells = vec![name(row)];
        cells.extend(row.times.map(figure));
        cells.push(figure(Some(row.to_best())));
        cells.push(figure(row.ratio(KIT)));
        rows.push(cells);
    }
    columns(&rows)
}

/// The calls in the order of the list.
pub fn calls<'a>(measured: &[&'a Measured]) -> Vec<(&'static str, Vec<&'a Measured>)> {
    let mut calls: Vec<(&str, Vec<&Measured>)> = Vec::new();
    for row in measured {
        match calls.iter_mut().find(|(call, _)| *call == row.call) {
            Some((_, rows)) => rows.push(row),
            None => calls.push((row.call, vec![row])),
        }
    }
    calls
}

/// The geometric means of the ratios by call, and of all calls.
fn means(measured: &[&Measured]) -> String {
    let head = ["call", "rows", "to String", "to Rust crate", "to best", "to kit's"];
    let mut rows = vec![head.map(String::from).to_vec()];
    let mut all = calls(measured);
    all.push(("all", measured.to_vec()));
    for (call, of_call) in all {
        let to = |place: usize| figure(mean(of_call.iter().filter_map(|row| row.ratio(place))));
        let best = figure(mean(of_call.iter().map(|row| row.to_best())));
        let count = of_call.len().to_string();
        rows.push(vec![call.to_string(), count, to(0), to(1), best, to(KIT)]);
    }
    columns(&rows)
}

/// The size of a value of each type.
fn sizes() -> String {
    #[cfg(feature = "peer")]
    let peer = size_of::<compact_str::CompactString>().to_string();
    #[cfg(not(feature = "peer"))]
    let peer = String::from("-");
    let (string, ours) = (size_of::<String>().to_string(), size_of_value().to_string());
    let head = ["memory", TYPES[0], TYPES[1], TYPES[OURS]].map(String::from);
    columns(&[head.to_vec(), vec![String::from("a value"), string, peer, ours]])
}

/// All tables.
pub fn text(measured: &[Measured], told: &str) -> String {
    let (calls, workloads): (Vec<_>, Vec<_>) = measured.iter().partition(|row| !row.input.is_empty());
    format!(
        "{told}\n\nGeometric means of this library's time over that of the others, by call\n\n{}\n\
         Of the workloads\n\n{}\nNanoseconds for one operation of a workload\n\n{}\n\
         Nanoseconds for one operation of a call, by kind and length of text\n\n{}\nBytes\n\n{}",
        means(&calls),
        means(&workloads).lines().last().unwrap_or_default().to_string() + "\n",
        times(&workloads),
        times(&calls),
        sizes()
    )
}
