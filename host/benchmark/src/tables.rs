//! The tables that are printed: plain text, aligned, and Markdown as they stand.

use crate::joining::JoinCosts;
use crate::joins::MeasuredJoin;
use crate::measuring::Measurement;
use crate::openfst::Composed;
use crate::transcribing::Transcribed;
use crate::writing::Written;
use fulgwerz::Header;
use std::time::Duration;

/// A column's title and width.
type Column = (&'static str, usize);

const SPEED: [Column; 12] = [
    ("book", 14),
    ("n", 1),
    ("k", 1),
    ("phones", 6),
    ("combinations", 12),
    ("metastates", 10),
    ("arcs", 6),
    ("proved ms", 9),
    ("plain ms", 9),
    ("proved ns/arc", 13),
    ("plain ns/arc", 12),
    ("proved/plain", 12),
];

const PARTS: [Column; 12] = [
    ("book", 14),
    ("clearing: proved ms", 19),
    ("plain ms", 8),
    ("combining: proved ms", 20),
    ("plain ms", 8),
    ("connecting: proved ms", 21),
    ("plain ms", 8),
    ("lent kB", 7),
    ("beside it proved: stack kB", 26),
    ("heap kB", 7),
    ("plain: stack kB", 15),
    ("heap kB", 7),
];

const WRITING: [Column; 15] = [
    ("book", 13),
    ("n", 1),
    ("k", 1),
    ("phones", 6),
    ("classes", 7),
    ("nodes", 5),
    ("lines", 5),
    ("proved ms", 9),
    ("plain ms", 8),
    ("proved ns/line", 14),
    ("plain ns/line", 13),
    ("proved/plain", 12),
    ("proved: stack kB", 16),
    ("plain: stack kB", 15),
    ("heap kB", 7),
];

const JOINING: [Column; 16] = [
    ("join", 20),
    ("n", 1),
    ("k", 1),
    ("phones", 6),
    ("network arcs", 12),
    ("words", 5),
    ("states", 6),
    ("arcs", 6),
    ("proved ms", 9),
    ("plain ms", 8),
    ("proved ns/arc", 13),
    ("plain ns/arc", 12),
    ("proved/plain", 12),
    ("proved: stack kB", 16),
    ("plain: stack kB", 15),
    ("heap kB", 7),
];

const TRANSCRIBING: [Column; 10] = [
    ("book", 13),
    ("n", 1),
    ("k", 1),
    ("phones", 6),
    ("questions a phone", 17),
    ("proved ms", 9),
    ("plain ms", 9),
    ("proved ns/phone", 15),
    ("plain ns/phone", 14),
    ("proved/plain", 12),
];

const COMPOSING: [Column; 4] = [("join", 20), ("states", 6), ("arcs", 6), ("whole process ms", 16)];

pub fn speed_head() -> String {
    head(&SPEED)
}

pub fn parts_head() -> String {
    head(&PARTS)
}

pub fn writing_head() -> String {
    head(&WRITING)
}

pub fn joining_head() -> String {
    head(&JOINING)
}

pub fn joining_row(measured: &MeasuredJoin, costs: &JoinCosts) -> String {
    let JoinCosts { answer, proved, plain } = costs;
    let per_arc = |time: Duration| format!("{:.1}", time.as_secs_f64() * 1e9 / answer.arcs as f64);
    row(&JOINING, &[
        measured.name.into(),
        measured.half.to_string(),
        measured.counts.states.to_string(),
        measured.phones.to_string(),
        measured.counts.arcs.to_string(),
        measured.words.words.len().to_string(),
        answer.states.to_string(),
        answer.arcs.to_string(),
        milliseconds(proved.time),
        milliseconds(plain.time),
        per_arc(proved.time),
        per_arc(plain.time),
        ratio(proved.time, plain.time),
        kilobytes(proved.stack),
        kilobytes(plain.stack),
        kilobytes(plain.heap),
    ])
}

pub fn transcribing_head() -> String {
    head(&TRANSCRIBING)
}

pub fn transcribing_row(name: &str, header: Header, transcribed: &Transcribed) -> String {
    let Transcribed { answer, proved, plain } = *transcribed;
    let sounds = answer.count as f64 / f64::from(header.states);
    let per_sound = |time: Duration| format!("{:.1}", time.as_secs_f64() * 1e9 / sounds);
    row(&TRANSCRIBING, &[
        name.into(),
        header.half.to_string(),
        header.states.to_string(),
        header.phones.to_string(),
        format!("{:.1}", answer.questions as f64 / sounds),
        milliseconds(proved),
        milliseconds(plain),
        per_sound(proved),
        per_sound(plain),
        ratio(proved, plain),
    ])
}

pub fn composing_head() -> String {
    head(&COMPOSING)
}

pub fn composing_row(name: &str, composed: &Composed) -> String {
    let Composed { time, states, arcs } = composed;
    row(&COMPOSING, &[name.into(), states.clone(), arcs.clone(), milliseconds(*time)])
}

pub fn writing_row(name: &str, header: Header, written: &Written) -> String {
    let Written { lines, proved, plain } = *written;
    let per_line = |time: Duration| format!("{:.1}", time.as_secs_f64() * 1e9 / lines as f64);
    row(&WRITING, &[
        name.into(),
        header.half.to_string(),
        header.states.to_string(),
        header.phones.to_string(),
        header.classes.to_string(),
        header.nodes.to_string(),
        lines.to_string(),
        milliseconds(proved.time),
        milliseconds(plain.time),
        per_line(proved.time),
        per_line(plain.time),
        ratio(proved.time, plain.time),
        kilobytes(proved.stack),
        kilobytes(plain.stack),
        kilobytes(plain.heap),
    ])
}

pub fn speed_row(name: &str, half: u32, phones: u32, measured: &Measurement) -> String {
    let counts = measured.answer.counts;
    let per_arc = |time: Duration| format!("{:.1}", time.as_secs_f64() * 1e9 / f64::from(counts.arcs));
    let (proved, plain) = (measured.proved.build, measured.plain.build);
    row(&SPEED, &[
        name.into(),
        half.to_string(),
        counts.states.to_string(),
        phones.to_string(),
        measured.combinations.to_string(),
        counts.metastates.to_string(),
        counts.arcs.to_string(),
        milliseconds(proved),
        milliseconds(plain),
        per_arc(proved),
        per_arc(plain),
        ratio(proved, plain),
    ])
}

pub fn parts_row(name: &str, measured: &Measurement) -> String {
    let (proved, plain) = (measured.proved, measured.plain);
    // Connecting is what is left of the build. Combining clears its own space once more, so this is a little too small.
    let rest = |build: Duration, combine, clear| milliseconds(build.saturating_sub(combine).saturating_sub(clear));
    row(&PARTS, &[
        name.into(),
        milliseconds(proved.clear),
        milliseconds(plain.clear),
        milliseconds(proved.combine),
        milliseconds(plain.combine),
        rest(proved.build, proved.combine, proved.clear),
        rest(plain.build, plain.combine, plain.clear),
        kilobytes(measured.room.bytes()),
        kilobytes(proved.stack),
        kilobytes(proved.heap),
        kilobytes(plain.stack),
        kilobytes(plain.heap),
    ])
}

fn ratio(proved: Duration, plain: Duration) -> String {
    format!("{:.2}", proved.as_secs_f64() / plain.as_secs_f64())
}

fn milliseconds(time: Duration) -> String {
    format!("{:.3}", time.as_secs_f64() * 1e3)
}

fn kilobytes(bytes: usize) -> String {
    (bytes >> 10).to_string()
}

/// Titles and the rule below them. Names stand to the left, numbers to the right.
fn head(columns: &[Column]) -> String {
    let rule = |(place, &(_, width)): (usize, &Column)| match place {
        0 => format!("|{}", "-".repeat(width + 2)),
        _ => format!("|{}:", "-".repeat(width + 1)),
    };
    let titles: Vec<String> = columns.iter().map(|&(title, _)| title.into()).collect();
    let rules: String = columns.iter().enumerate().map(rule).collect();
    format!("{}\n{rules}|", row(columns, &titles))
}

fn row(columns: &[Column], cells: &[String]) -> String {
    let cell = |(place, text): (usize, &String)| match columns[place].1 {
        width if place == 0 => format!("| {text:<width$} "),
        width => format!("| {text:>width$} "),
    };
    let cells: String = cells.iter().enumerate().map(cell).collect();
    format!("{cells}|")
}
