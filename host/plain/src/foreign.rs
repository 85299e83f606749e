//! 18: lent tables or arcs, with their header or `W` counts, that the readers never leave.

use crate::limits::*;
use fulgwerz::{Counts, Header, Tables};

/// Tables that reading some book could leave.
pub fn tables_known(header: Header, tables: Tables) -> bool {
    let Tables { nodes, classes, roots, plains } = tables;
    records_known(header, nodes, classes)
        && plains_known(header, plains)
        && roots_known(header, roots, plains)
        && each_named_once(header, nodes, roots)
}

/// Silence is no boundary phone, and no boundary phone's plain phone is one.
fn plains_known(header: Header, plains: &[u32]) -> bool {
    used_and_zeros(plains, header.phones as usize)
        && plains[0] == 0
        && plains.iter().all(|&plain| plain <= header.phones && (plain == 0 || plains[plain as usize - 1] == 0))
}

/// Every phone has all its roots, but a boundary phone may have none.
fn roots_known(header: Header, roots: &[u32], plains: &[u32]) -> bool {
    let phone_known = |(own, &plain): (&[u32], &u32)| {
        own.iter().all(|&root| root < header.nodes) || plain != 0 && own.iter().all(|&root| root == NO_ROOT)
    };
    used_and_zeros(roots, (header.phones * header.states) as usize)
        && roots.chunks(header.states as usize).zip(&plains[..header.phones as usize]).all(phone_known)
}

/// The part of this test that the leaf lookup makes: header, node records and classes, but not how nodes are named.
pub fn records_known(header: Header, nodes: &[u32], classes: &[u64]) -> bool {
    header_known(header)
        && used_and_zeros(nodes, NODE * header.nodes as usize)
        && (0..header.nodes).zip(nodes.chunks_exact(NODE)).all(|(number, node)| node_known(header, node, number))
        && used_and_zeros(classes, header.classes as usize)
        && classes.iter().all(|&members| u128::from(members) < 1 << header.phones)
}

fn header_known(header: Header) -> bool {
    header.half <= MOST_HALF
        && (1..=MOST_STATES).contains(&header.states)
        && (1..=MOST_PHONES).contains(&header.phones)
        && header.classes <= MOST_CLASSES
        && (1..=MOST_NODES).contains(&header.nodes)
}

/// A record that an N or L line leaves, with children greater than their node.
fn node_known(header: Header, node: &[u32], number: u32) -> bool {
    let child_known = |child: u32| number < child && child < header.nodes;
    match node[0] {
        QUESTION => {
            (1..=header.classes).contains(&node[1])
                && node[2] <= 2 * header.half
                && child_known(node[3])
                && child_known(node[4])
        }
        LEAF => (1..=MOST_MODEL).contains(&node[1]) && node[2..] == [0, 0, 0],
        _ => false,
    }
}

fn each_named_once(header: Header, nodes: &[u32], roots: &[u32]) -> bool {
    let mut named = vec![0u32; header.nodes as usize];
    for node in nodes.chunks_exact(NODE).filter(|node| node[0] == QUESTION) {
        named[node[3] as usize] += 1;
        named[node[4] as usize] += 1;
    }
    for &root in roots[..(header.phones * header.states) as usize].iter().filter(|&&root| root != NO_ROOT) {
        named[root as usize] += 1;
    }
    named.iter().all(|&times| times == 1)
}

/// Arcs that reading some network text could leave.
pub fn arcs_known(counts: Counts, arcs: &[u32]) -> bool {
    let Counts { states, metastates, arcs: count } = counts;
    if !(1..=MOST_STATES).contains(&states)
        || !(1..=MOST_METASTATES as u32).contains(&metastates)
        || !(1..=MOST_ARCS as u32).contains(&count)
        || !used_and_zeros(arcs, ARC * count as usize)
    {
        return false;
    }
    let used = || arcs.chunks_exact(ARC).take(count as usize);
    let end = 2 + states * metastates;
    used().all(|arc| arc[0] < end && arc[1] < end && arc[2] <= MOST_MODEL && arc[3] <= MOST_PHONES)
        && used().zip(used().skip(1)).all(|(arc, next)| arc[0] <= next[0])
}

/// The table has room for the used words, and 0 in all words beyond them.
pub fn used_and_zeros<Word: Copy + Default + PartialEq>(table: &[Word], used: usize) -> bool {
    used <= table.len() && table[used..].iter().all(|&word| word == Word::default())
}
