//! OpenFst's composition of the same network with the same words, where its tools are installed. What is timed is the
//! whole process `fstcompose`, which reads two files and writes one.

use crate::joins::MeasuredJoin;
use plain::limits::ARC;
use std::fmt::Write;
use std::path::{Path, PathBuf};
use std::process::{Command, Stdio};
use std::time::{Duration, Instant};
use std::{env, fs, io, process};

const TOOLS: [&str; 4] = ["fstcompile", "fstarcsort", "fstcompose", "fstinfo"];

/// The best of five times, and what the composition has.
pub struct Composed {
    pub time: Duration,
    pub states: String,
    pub arcs: String,
}

/// The first tool that is not installed.
pub fn missing_tool() -> Option<&'static str> {
    let is_installed = |tool: &str| {
        let mut command = Command::new(tool);
        command.arg("--help").stdout(Stdio::null()).stderr(Stdio::null()).status().is_ok()
    };
    TOOLS.into_iter().find(|tool| !is_installed(tool))
}

pub fn compose(measured: &MeasuredJoin) -> io::Result<Composed> {
    let folder = env::temp_dir().join(format!("benchmark-{}", process::id()));
    fs::create_dir_all(&folder)?;
    let composed = compose_in(&folder, measured);
    fs::remove_dir_all(&folder)?;
    composed
}

fn compose_in(folder: &Path, measured: &MeasuredJoin) -> io::Result<Composed> {
    let path = |name: &str| folder.join(name);
    fs::write(path("network.txt"), network_text(&measured.arcs))?;
    fs::write(path("words.txt"), words_text(&measured.words.words))?;
    run("fstcompile", &[path("network.txt"), path("network.fst")])?;
    run("fstcompile", &[path("words.txt"), path("unsorted.fst")])?;
    run("fstarcsort", &["--sort_type=ilabel".into(), path("unsorted.fst"), path("words.fst")])?;
    let files = [path("network.fst"), path("words.fst"), path("joined.fst")];
    let arguments = [&["--connect=false".into()], &files[..]].concat();
    let mut best = Duration::MAX;
    for _ in 0..5 {
        let begin = Instant::now();
        run("fstcompose", &arguments)?;
        best = best.min(begin.elapsed());
    }
    let told = run("fstinfo", &[path("joined.fst")])?;
    let number = |title: &str| {
        let line = told.lines().find_map(|line| line.strip_prefix(title));
        line.map_or("?".to_string(), |number| number.trim().to_string())
    };
    Ok(Composed { time: best, states: number("# of states"), arcs: number("# of arcs") })
}

/// Runs a tool to its end; what it printed.
fn run(tool: &str, arguments: &[PathBuf]) -> io::Result<String> {
    let output = Command::new(tool).args(arguments).stdin(Stdio::null()).output()?;
    match output.status.success() {
        true => Ok(String::from_utf8_lossy(&output.stdout).into_owned()),
        false => Err(io::Error::other(format!("{tool}: {}", String::from_utf8_lossy(&output.stderr).trim()))),
    }
}

/// From models to phones.
fn network_text(arcs: &[u32]) -> String {
    let mut text = String::new();
    for arc in arcs.chunks_exact(ARC) {
        put(&mut text, [arc[0], arc[1], arc[2], arc[3]]);
    }
    text + "1\n"
}

/// From phones to words: silence to state 1, where words begin and end, and silence to the final state 2.
fn words_text(words: &[Vec<u32>]) -> String {
    let mut text = String::new();
    put(&mut text, [0, 1, 1, 0]);
    put(&mut text, [1, 2, 1, 0]);
    let mut states = 3;
    for (number, phones) in (1..).zip(words) {
        let mut from = 1;
        for (place, &phone) in phones.iter().enumerate() {
            let to = if place + 1 == phones.len() { 1 } else { states };
            put(&mut text, [from, to, phone, if place == 0 { number } else { 0 }]);
            states += u32::from(to != 1);
            from = to;
        }
    }
    text + "2\n"
}

fn put(text: &mut String, [from, to, input, output]: [u32; ARC]) {
    writeln!(text, "{from}\t{to}\t{input}\t{output}").expect("a string takes all that is written");
}
