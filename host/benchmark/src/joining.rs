//! Measures one join: both sides in turn, again and again, the best time of each.

use crate::builds::Side;
use crate::joins::MeasuredJoin;
use crate::measuring::best_of;
use crate::memory::heap_and_stack;
use crate::writing::Costs;
use fulgwerz::{JoinAnswer, Joined};
use plain::limits::{ARC, JOINED, MOST_ARCS, MOST_JOINED};

pub struct JoinCosts {
    pub answer: JoinAnswer,
    pub proved: Costs,
    pub plain: Costs,
}

/// The buffers that one side fills.
#[derive(PartialEq, Eq)]
struct Buffers {
    states: Vec<u32>,
    arcs: Vec<u32>,
}

impl Buffers {
    /// Filled with ones, so that every page is there before anything is timed.
    fn new(states: usize, arcs: usize) -> Buffers {
        Buffers { states: vec![u32::MAX; JOINED * states], arcs: vec![u32::MAX; ARC * arcs] }
    }
}

/// Lends the records that the join needs.
pub fn measure(measured: &MeasuredJoin) -> JoinCosts {
    let need = join(Side::Plain, measured, &mut Buffers::new(MOST_JOINED, MOST_ARCS));
    assert_eq!(need.fault, 0, "{}: the words are not joined", measured.name);
    let mut buffers = [(); 2].map(|()| Buffers::new(need.states, need.arcs));
    let answers = [Side::Proved, Side::Plain].map(|side| join(side, measured, &mut buffers[side as usize]));
    assert_eq!(answers[0], answers[1], "the answers differ");
    assert!(buffers[0] == buffers[1], "the buffers differ");
    let times = best_of(2000, measured, &mut buffers, |side, measured, buffers| _ = join(side, measured, buffers));
    assert!(buffers[0] == buffers[1], "the buffers differ after the last repetition");
    let [proved, plain] = [Side::Proved, Side::Plain].map(|side| {
        let buffers = &mut buffers[side as usize];
        let (heap, stack) = heap_and_stack(|| _ = join(side, measured, buffers));
        Costs { time: times[side as usize], heap, stack }
    });
    JoinCosts { answer: answers[0], proved, plain }
}

fn join(side: Side, measured: &MeasuredJoin, buffers: &mut Buffers) -> JoinAnswer {
    let space = Joined { states: &mut buffers.states, arcs: &mut buffers.arcs };
    match side {
        Side::Proved => fulgwerz::join(measured.counts, &measured.arcs, measured.words(), space),
        Side::Plain => plain::fast::join(measured.counts, &measured.arcs, measured.words(), space),
    }
}
