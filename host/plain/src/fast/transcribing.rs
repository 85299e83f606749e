//! The models of a phone sequence, and the sum of the questions.

use crate::in_force::roots_in_force;
use crate::limits::{LEAF, NODE};
use fulgwerz::{Header, Tables};

/// Fills one model for each phone and state of an utterance, which has room; answers the sum of the questions.
pub fn transcribe(header: Header, tables: Tables, phones: &[u32], models: &mut [u32]) -> u64 {
    let Tables { nodes, classes, .. } = tables;
    let (half, states) = (header.half as usize, header.states as usize);
    let roots: Vec<u32> =
        (1..=header.phones).flat_map(|phone| roots_in_force(header, tables, phone)).copied().collect();
    let mut padded = vec![1; phones.len() + 2 * half];
    padded[half..][..phones.len()].copy_from_slice(phones);
    let mut questions = 0;
    for (context, given) in padded.windows(2 * half + 1).zip(models.chunks_exact_mut(states)) {
        let own = &roots[(context[half] as usize - 1) * states..][..states];
        for (model, &root) in given.iter_mut().zip(own) {
            let mut node = &nodes[NODE * root as usize..][..NODE];
            while node[0] != LEAF {
                let members = classes[node[1] as usize - 1];
                let yes = members >> (context[node[2] as usize] - 1) & 1 == 1;
                let child = if yes { node[3] } else { node[4] };
                node = &nodes[NODE * child as usize..][..NODE];
                questions += 1;
            }
            *model = node[1];
        }
    }
    questions
}
