//! What the trees give: the leaf that a context reaches, and the models of a phone sequence; and how many questions are
//! met on the way.

use crate::buffers::{clear, fill};
use crate::foreign::{records_known, tables_known};
use crate::in_force::roots_in_force;
use crate::limits::{LEAF, MOST_SOUNDS, NODE};
use crate::refusal::*;
use fulgwerz::{Header, LeafAnswer, Node, Tables, TranscriptAnswer};

/// The node number of the leaf that a context reaches from a root.
pub fn leaf(header: Header, nodes: &[u32], classes: &[u64], root: u32, context: &[u32]) -> LeafAnswer {
    let judge = || {
        require(records_known(header, nodes, classes) && root < header.nodes, FOREIGN)?;
        require(context.len() == 2 * header.half as usize + 1 && in_range(header, context), RANGE)
    };
    match judge() {
        Ok(()) => {
            let (leaf, questions) = reached(nodes, classes, root, context);
            LeafAnswer { fault: 0, line: 0, leaf, questions }
        }
        Err(Refusal { fault, line }) => LeafAnswer { fault, line, ..LeafAnswer::default() },
    }
}

/// The same over a list of node structs, which holds the header's nodes and no others.
pub fn leaf_in_list(header: Header, nodes: &[Node], classes: &[u64], root: u32, context: &[u32]) -> LeafAnswer {
    if nodes.len() != header.nodes as usize {
        return LeafAnswer { fault: FOREIGN, ..LeafAnswer::default() };
    }
    let words: Vec<u32> =
        nodes.iter().flat_map(|node| [node.kind, node.value, node.position, node.yes, node.no]).collect();
    leaf(header, &words, classes, root, context)
}

fn in_range(header: Header, phones: &[u32]) -> bool {
    phones.iter().all(|phone| (1..=header.phones).contains(phone))
}

/// The leaf and the number of questions above it. Yes where the class holds the context's phone at the question's
/// position.
fn reached(nodes: &[u32], classes: &[u64], root: u32, context: &[u32]) -> (u32, u32) {
    let node = &nodes[NODE * root as usize..][..NODE];
    if node[0] == LEAF {
        return (root, 0);
    }
    let phone = context[node[2] as usize];
    let yes = classes[node[1] as usize - 1] >> (phone - 1) & 1 == 1;
    let (leaf, questions) = reached(nodes, classes, if yes { node[3] } else { node[4] }, context);
    (leaf, questions + 1)
}

/// The models of all states of all phones in order, and the sum of the questions.
pub fn transcribe(header: Header, tables: Tables, phones: &[u32], models: &mut [u32]) -> TranscriptAnswer {
    match judge_utterance(header, tables, phones, models.len()) {
        Ok(()) => {
            let (given, questions) = models_of(header, tables, phones);
            fill(models, &given);
            TranscriptAnswer { fault: 0, line: 0, count: given.len(), questions }
        }
        Err(Refusal { fault, line }) => {
            clear(models);
            TranscriptAnswer { fault, line, ..TranscriptAnswer::default() }
        }
    }
}

/// 18, then 41, then 33, with room for so many models.
pub fn judge_utterance(header: Header, tables: Tables, phones: &[u32], room: usize) -> Result<(), Refusal> {
    require(tables_known(header, tables), FOREIGN)?;
    let silence_at_both_ends = phones.first() == Some(&1) && phones.last() == Some(&1);
    require(silence_at_both_ends && in_range(header, phones) && phones.len() <= MOST_SOUNDS, UTTERANCE)?;
    require(phones.len() * header.states as usize <= room, SHORT)
}

fn models_of(header: Header, tables: Tables, phones: &[u32]) -> (Vec<u32>, u64) {
    let Tables { nodes, classes, .. } = tables;
    let mut models = Vec::new();
    let mut sum = 0;
    for (place, &phone) in phones.iter().enumerate() {
        let context = context_of(header.half as usize, phones, place);
        for &root in roots_in_force(header, tables, phone) {
            let (leaf, questions) = reached(nodes, classes, root, &context);
            models.push(nodes[NODE * leaf as usize + 1]);
            sum += u64::from(questions);
        }
    }
    (models, sum)
}

/// In column c the phone at place i+c-n, or silence where that lies beyond either end.
fn context_of(half: usize, phones: &[u32], place: usize) -> Vec<u32> {
    let phone_at = |column: usize| match (place + column).checked_sub(half) {
        Some(at) if at < phones.len() => phones[at],
        _ => 1,
    };
    (0..=2 * half).map(phone_at).collect()
}
