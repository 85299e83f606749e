//! The arcs that leave a state, as a part of the lent arcs.

use crate::foreign::arcs_known;
use crate::limits::ARC;
use crate::refusal::*;
use fulgwerz::{Counts, PartAnswer};

/// The part stands after all arcs of smaller sources, also where it is empty.
pub fn leaving(counts: Counts, arcs: &[u32], state: u32) -> PartAnswer {
    let judge = || {
        require(arcs_known(counts, arcs), FOREIGN)?;
        require(state < 2 + counts.states * counts.metastates, STATE)
    };
    if let Err(Refusal { fault, line }) = judge() {
        return PartAnswer { fault, line, start: 0, length: 0 };
    }
    let sources = || arcs.chunks_exact(ARC).take(counts.arcs as usize).map(|arc| arc[0]);
    let start = ARC * sources().filter(|&source| source < state).count();
    let length = ARC * sources().filter(|&source| source == state).count();
    PartAnswer { fault: 0, line: 0, start, length }
}
