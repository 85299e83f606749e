//! Network text: out and in.

use crate::books::text::line;
use crate::buffers::{clear, fill};
use crate::foreign::arcs_known;
use crate::limits::*;
use crate::lines::{lines_of, parse, NETWORK_FORMS};
use crate::refusal::*;
use fulgwerz::{CountAnswer, Counts, NetworkAnswer};

/// Writes the text of a network.
pub fn write(counts: Counts, arcs: &[u32], text: &mut [u8]) -> CountAnswer {
    let judge = || {
        require(arcs_known(counts, arcs), FOREIGN)?;
        require(LINE * (counts.arcs as usize + 1) <= text.len(), SHORT)
    };
    if let Err(Refusal { fault, line }) = judge() {
        clear(text);
        return CountAnswer { fault, line, count: 0 };
    }
    let mut written = String::new();
    line(&mut written, 'W', &[counts.states, counts.metastates, counts.arcs]);
    for arc in arcs.chunks_exact(ARC).take(counts.arcs as usize) {
        line(&mut written, 'A', arc);
    }
    fill(text, written.as_bytes());
    CountAnswer { fault: 0, line: 0, count: written.len() }
}

/// Reads network text into arcs.
pub fn read_network(text: &[u8], arcs: &mut [u32]) -> NetworkAnswer {
    match read_arcs(text, arcs.len()) {
        Ok((counts, words)) => {
            fill(arcs, &words.concat());
            NetworkAnswer { fault: 0, line: 0, counts }
        }
        Err(Refusal { fault, line }) => {
            clear(arcs);
            NetworkAnswer { fault, line, counts: Counts::default() }
        }
    }
}

fn read_arcs(text: &[u8], lent: usize) -> Result<(Counts, Vec<[u32; ARC]>), Refusal> {
    let lines = lines_of(text)?;
    let mut counts = Counts::default();
    let mut arcs = Vec::new();
    for (place, line) in lines.iter().enumerate() {
        let number = place + 1;
        require_line(number == 1 || arcs.len() < counts.arcs as usize, COUNT, number)?;
        let Some((letter, numbers)) = parse(line, NETWORK_FORMS) else {
            return refuse_line(MISPRINT, number);
        };
        require_line((letter == b'W') == (number == 1), ORDER, number)?;
        if number == 1 {
            counts = counts_of(&numbers, lent)?;
        } else {
            arcs.push(arc_of(&numbers, counts, arcs.last()).map_err(|fault| Refusal { fault, line: number })?);
        }
    }
    require_line(arcs.len() == counts.arcs as usize, COUNT, lines.len() + 1)?;
    Ok((counts, arcs))
}

/// The first line: its ranges, then whether the lent arcs are long enough.
fn counts_of(numbers: &[u32], lent: usize) -> Result<Counts, Refusal> {
    let [states, metastates, arcs] = numbers[..].try_into().expect("three numbers");
    let in_range = (1..=MOST_STATES).contains(&states)
        && (1..=MOST_METASTATES as u32).contains(&metastates)
        && (1..=MOST_ARCS as u32).contains(&arcs);
    require_line(in_range, RANGE, 1)?;
    require_line(ARC * arcs as usize <= lent, NARROW, 1)?;
    Ok(Counts { states, metastates, arcs })
}

/// A further line: its ranges, then the order of sources.
fn arc_of(numbers: &[u32], counts: Counts, before: Option<&[u32; ARC]>) -> Result<[u32; ARC], u32> {
    let arc: [u32; ARC] = numbers.try_into().expect("four numbers");
    let end = 2 + counts.states * counts.metastates;
    if arc[0] >= end || arc[1] >= end || arc[2] > MOST_MODEL || arc[3] > MOST_PHONES {
        return Err(RANGE);
    }
    match before {
        Some(before) if before[0] > arc[0] => Err(ORDER),
        _ => Ok(arc),
    }
}
