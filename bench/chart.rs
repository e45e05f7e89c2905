//! The figures as a picture: for each call two bars, this library's time over that of the better of Rust's types, and
//! over that of the kit's `String`; geometric means over the rows of the call.

use crate::Measured;
use crate::report::{calls, mean};
use crate::table::KIT;
use std::fmt::Write;

/// Longer bars are cut off here, and end in an arrow.
const LONGEST: f64 = 2.5;

/// Measures of the picture, in its units.
const LEFT: f64 = 150.0;
const UNIT: f64 = 180.0;
const BAR: f64 = 8.0;
const GROUP: f64 = 23.0;
const TOP: f64 = 74.0;

/// Colours for light and dark paper.
const STYLE: &str = "\
text { font: 11px sans-serif; fill: #24292f }
.paper { fill: #ffffff } .line { stroke: #8c959f } .title { font-size: 14px; font-weight: bold }
.bar0 { fill: #2471c8 } .bar1 { fill: #9aa4af }
@media (prefers-color-scheme: dark) {
  text { fill: #e6edf3 } .paper { fill: #0d1117 } .line { stroke: #6e7681 }
  .bar0 { fill: #58a6ff } .bar1 { fill: #6e7681 }
}
";

/// The picture, with a line below its title for where and when it was measured.
pub fn chart(measured: &[Measured], told: &str) -> String {
    let rows: Vec<&Measured> = measured.iter().filter(|row| !row.input.is_empty()).collect();
    let calls = calls(&rows);
    let width = LEFT + UNIT * LONGEST + 60.0;
    let height = TOP + GROUP * calls.len() as f64 + 12.0;
    let mut picture = format!(
        "<svg xmlns=\"http://www.w3.org/2000/svg\" viewBox=\"0 0 {width} {height}\" width=\"{width}\" height=\"{height}\" \
         role=\"img\">\n<title>Time of each call beside others</title>\n<style>\n{STYLE}</style>\n\
         <rect class=\"paper\" width=\"{width}\" height=\"{height}\"/>\n"
    );
    picture += &head(told, height);
    for (row, (call, rows)) in calls.iter().enumerate() {
        let top = TOP + GROUP * row as f64;
        let best = mean(rows.iter().map(|row| row.to_best()));
        let kit = mean(rows.iter().filter_map(|row| row.ratio(KIT)));
        picture += &format!(
            "<text x=\"{}\" y=\"{}\" text-anchor=\"end\">{call}</text>\n",
            LEFT - 8.0,
            top + 12.0
        );
        for (place, share) in [best, kit].into_iter().enumerate() {
            if let Some(share) = share {
                picture += &bar(place, share, top + BAR * place as f64);
            }
        }
    }
    picture + "</svg>\n"
}

/// The title, the names of the colours, and the lines at each half.
fn head(told: &str, height: f64) -> String {
    let told = told.replace('&', "&amp;").replace('<', "&lt;").replace('>', "&gt;");
    let mut text = format!(
        "<text class=\"title\" x=\"12\" y=\"20\">Time beside others, by call: shorter is faster</text>\n\
         <text x=\"12\" y=\"37\">{told}</text>\n"
    );
    for (place, name) in ["the better of Rust's String and the Rust crate", "the kit's String"]
        .iter()
        .enumerate()
    {
        let x = 12.0 + 280.0 * place as f64;
        let _ = writeln!(
            text,
            "<rect class=\"bar{place}\" x=\"{x}\" y=\"45\" width=\"9\" height=\"9\"/><text x=\"{}\" y=\"54\">{name}</text>",
            x + 14.0
        );
    }
    for half in 0..=(LONGEST * 2.0) as u32 {
        let share = f64::from(half) / 2.0;
        let x = LEFT + UNIT * share;
        let dash = if half == 2 { "" } else { " stroke-dasharray=\"2 3\"" };
        let _ = writeln!(
            text,
            "<line class=\"line\" x1=\"{x}\" x2=\"{x}\" y1=\"{}\" y2=\"{}\"{dash}/>\
             <text x=\"{x}\" y=\"{}\" text-anchor=\"middle\">{share}</text>",
            TOP - 2.0,
            height - 10.0,
            TOP - 6.0
        );
    }
    text
}

fn bar(place: usize, share: f64, top: f64) -> String {
    let length = UNIT * share.min(LONGEST);
    let mut text = format!(
        "<rect class=\"bar{place}\" x=\"{LEFT}\" y=\"{top:.1}\" width=\"{length:.1}\" height=\"{}\"/>\n",
        BAR - 1.0
    );
    if share > LONGEST {
        let (x, y) = (LEFT + length + 4.0, top + BAR - 1.0);
        let _ = writeln!(text, "<text x=\"{x:.1}\" y=\"{y:.1}\">→ {share:.1}</text>");
    }
    text
}
