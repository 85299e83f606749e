//! The trees in force: a boundary phone takes its plain phone's, whatever R lines it has itself.

use fulgwerz::{Header, Tables};

/// The roots of a phone's trees, one for each state.
pub fn roots_in_force<'a>(header: Header, tables: Tables<'a>, phone: u32) -> &'a [u32] {
    let giver = match tables.plains[phone as usize - 1] {
        0 => phone,
        plain => plain,
    };
    let states = header.states as usize;
    &tables.roots[(giver as usize - 1) * states..][..states]
}
