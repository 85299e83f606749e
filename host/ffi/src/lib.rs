//! The entries of libfulgwerz.a as safe functions: include/fulgwerz.h in Rust. A slice is passed as pointer and length.

/// The numbers of a book's H line.
#[repr(C)]
#[derive(Clone, Copy, Debug, Default, PartialEq, Eq)]
pub struct Header {
    /// The half-width n: a context has 2n+1 phones.
    pub half: u32,
    /// States per phone, k.
    pub states: u32,
    pub phones: u32,
    pub classes: u32,
    pub nodes: u32,
}

/// A node as a struct: the five words that it has in the table.
#[repr(C)]
#[derive(Clone, Copy, Debug, Default, PartialEq, Eq)]
pub struct Node {
    /// 1 for a question, 2 for a leaf.
    pub kind: u32,
    /// A question's class, a leaf's model.
    pub value: u32,
    pub position: u32,
    pub yes: u32,
    pub no: u32,
}

/// The numbers of a network's W line.
#[repr(C)]
#[derive(Clone, Copy, Debug, Default, PartialEq, Eq)]
pub struct Counts {
    /// States per metastate, k.
    pub states: u32,
    pub metastates: u32,
    pub arcs: u32,
}

#[repr(C)]
#[derive(Clone, Copy, Debug, Default, PartialEq, Eq)]
pub struct ReadAnswer {
    pub fault: u32,
    pub line: usize,
    pub header: Header,
}

#[repr(C)]
#[derive(Clone, Copy, Debug, Default, PartialEq, Eq)]
pub struct LeafAnswer {
    pub fault: u32,
    pub line: usize,
    pub leaf: u32,
    /// How many questions were met on the way to it.
    pub questions: u32,
}

#[repr(C)]
#[derive(Clone, Copy, Debug, Default, PartialEq, Eq)]
pub struct TranscriptAnswer {
    pub fault: u32,
    pub line: usize,
    /// Models.
    pub count: usize,
    /// How many questions were put, over all phones and states.
    pub questions: u64,
}

#[repr(C)]
#[derive(Clone, Copy, Debug, Default, PartialEq, Eq)]
pub struct CountAnswer {
    pub fault: u32,
    pub line: usize,
    /// Combinations, bytes or words, as the entry says.
    pub count: usize,
}

#[repr(C)]
#[derive(Clone, Copy, Debug, Default, PartialEq, Eq)]
pub struct BuildAnswer {
    pub fault: u32,
    pub line: usize,
    /// False without a fault: stopped, with a metastate still unexpanded.
    pub finished: bool,
    pub turns: u32,
    pub counts: Counts,
}

#[repr(C)]
#[derive(Clone, Copy, Debug, Default, PartialEq, Eq)]
pub struct NetworkAnswer {
    pub fault: u32,
    pub line: usize,
    pub counts: Counts,
}

#[repr(C)]
#[derive(Clone, Copy, Debug, Default, PartialEq, Eq)]
pub struct PartAnswer {
    pub fault: u32,
    pub line: usize,
    /// Where the part begins in the lent arcs, and how long it is, in words.
    pub start: usize,
    pub length: usize,
}

#[repr(C)]
#[derive(Clone, Copy, Debug, Default, PartialEq, Eq)]
pub struct JoinAnswer {
    pub fault: u32,
    pub line: usize,
    /// Joined states, 0 and 1 included.
    pub states: usize,
    /// Joined arcs.
    pub arcs: usize,
}

/// The tables that reading leaves, lent to be read.
#[derive(Clone, Copy)]
pub struct Tables<'a> {
    pub nodes: &'a [u32],
    pub classes: &'a [u64],
    pub roots: &'a [u32],
    /// For each phone its plain phone, or 0.
    pub plains: &'a [u32],
}

/// The same, lent to be filled.
pub struct TablesMut<'a> {
    pub nodes: &'a mut [u32],
    pub classes: &'a mut [u64],
    pub roots: &'a mut [u32],
    pub plains: &'a mut [u32],
}

/// The space of a build, lent to be filled.
pub struct Space<'a> {
    pub combinations: &'a mut [u64],
    pub metastates: &'a mut [u64],
    pub arcs: &'a mut [u32],
}

/// The words of a word book as reading leaves them, lent to be read.
#[derive(Clone, Copy)]
pub struct Words<'a> {
    pub count: usize,
    pub table: &'a [u32],
}

/// The space of a join, lent to be filled.
pub struct Joined<'a> {
    pub states: &'a mut [u32],
    pub arcs: &'a mut [u32],
}

mod raw {
    use super::*;

    extern "C" {
        pub fn fulgwerz_read(
            text: *const u8, text_length: usize,
            nodes: *mut u32, nodes_length: usize,
            classes: *mut u64, classes_length: usize,
            roots: *mut u32, roots_length: usize,
            plains: *mut u32, plains_length: usize,
        ) -> ReadAnswer;

        pub fn fulgwerz_write_book(
            header: Header,
            nodes: *const u32, nodes_length: usize,
            classes: *const u64, classes_length: usize,
            roots: *const u32, roots_length: usize,
            plains: *const u32, plains_length: usize,
            text: *mut u8, text_length: usize,
        ) -> CountAnswer;

        pub fn fulgwerz_leaf(
            header: Header,
            nodes: *const u32, nodes_length: usize,
            classes: *const u64, classes_length: usize,
            root: u32,
            context: *const u32, context_length: usize,
        ) -> LeafAnswer;

        pub fn fulgwerz_leaf_in_list(
            header: Header,
            nodes: *const Node, nodes_length: usize,
            classes: *const u64, classes_length: usize,
            root: u32,
            context: *const u32, context_length: usize,
        ) -> LeafAnswer;

        pub fn fulgwerz_transcribe(
            header: Header,
            nodes: *const u32, nodes_length: usize,
            classes: *const u64, classes_length: usize,
            roots: *const u32, roots_length: usize,
            plains: *const u32, plains_length: usize,
            phones: *const u32, phones_length: usize,
            models: *mut u32, models_length: usize,
        ) -> TranscriptAnswer;

        pub fn fulgwerz_combine(
            header: Header,
            nodes: *const u32, nodes_length: usize,
            classes: *const u64, classes_length: usize,
            roots: *const u32, roots_length: usize,
            plains: *const u32, plains_length: usize,
            combinations: *mut u64, combinations_length: usize,
        ) -> CountAnswer;

        pub fn fulgwerz_build(
            header: Header,
            nodes: *const u32, nodes_length: usize,
            classes: *const u64, classes_length: usize,
            roots: *const u32, roots_length: usize,
            plains: *const u32, plains_length: usize,
            combinations: *mut u64, combinations_length: usize,
            metastates: *mut u64, metastates_length: usize,
            arcs: *mut u32, arcs_length: usize,
            turn_limit: u32,
        ) -> BuildAnswer;

        pub fn fulgwerz_build_book(
            text: *const u8, text_length: usize,
            nodes: *mut u32, nodes_length: usize,
            classes: *mut u64, classes_length: usize,
            roots: *mut u32, roots_length: usize,
            plains: *mut u32, plains_length: usize,
            combinations: *mut u64, combinations_length: usize,
            metastates: *mut u64, metastates_length: usize,
            arcs: *mut u32, arcs_length: usize,
            turn_limit: u32,
        ) -> BuildAnswer;

        pub fn fulgwerz_leaving(counts: Counts, arcs: *const u32, arcs_length: usize, state: u32) -> PartAnswer;

        pub fn fulgwerz_write(
            counts: Counts,
            arcs: *const u32, arcs_length: usize,
            text: *mut u8, text_length: usize,
        ) -> CountAnswer;

        pub fn fulgwerz_read_network(
            text: *const u8, text_length: usize,
            arcs: *mut u32, arcs_length: usize,
        ) -> NetworkAnswer;

        pub fn fulgwerz_read_words(
            text: *const u8, text_length: usize,
            words: *mut u32, words_length: usize,
        ) -> CountAnswer;

        pub fn fulgwerz_join(
            counts: Counts,
            arcs: *const u32, arcs_length: usize,
            word_count: usize,
            words: *const u32, words_length: usize,
            states: *mut u32, states_length: usize,
            joined: *mut u32, joined_length: usize,
        ) -> JoinAnswer;
    }
}

/// Reads a tree book into the tables.
pub fn read(text: &[u8], tables: TablesMut) -> ReadAnswer {
    let TablesMut { nodes, classes, roots, plains } = tables;
    unsafe {
        raw::fulgwerz_read(
            text.as_ptr(), text.len(),
            nodes.as_mut_ptr(), nodes.len(),
            classes.as_mut_ptr(), classes.len(),
            roots.as_mut_ptr(), roots.len(),
            plains.as_mut_ptr(), plains.len(),
        )
    }
}

/// Writes the plain form of the book in the tables.
pub fn write_book(header: Header, tables: Tables, text: &mut [u8]) -> CountAnswer {
    let Tables { nodes, classes, roots, plains } = tables;
    unsafe {
        raw::fulgwerz_write_book(
            header,
            nodes.as_ptr(), nodes.len(),
            classes.as_ptr(), classes.len(),
            roots.as_ptr(), roots.len(),
            plains.as_ptr(), plains.len(),
            text.as_mut_ptr(), text.len(),
        )
    }
}

/// The leaf that a context reaches from a root.
pub fn leaf(header: Header, nodes: &[u32], classes: &[u64], root: u32, context: &[u32]) -> LeafAnswer {
    unsafe {
        raw::fulgwerz_leaf(
            header,
            nodes.as_ptr(), nodes.len(),
            classes.as_ptr(), classes.len(),
            root,
            context.as_ptr(), context.len(),
        )
    }
}

/// The same over a list of node structs.
pub fn leaf_in_list(header: Header, nodes: &[Node], classes: &[u64], root: u32, context: &[u32]) -> LeafAnswer {
    unsafe {
        raw::fulgwerz_leaf_in_list(
            header,
            nodes.as_ptr(), nodes.len(),
            classes.as_ptr(), classes.len(),
            root,
            context.as_ptr(), context.len(),
        )
    }
}

/// The models of a phone sequence.
pub fn transcribe(header: Header, tables: Tables, phones: &[u32], models: &mut [u32]) -> TranscriptAnswer {
    let Tables { nodes, classes, roots, plains } = tables;
    unsafe {
        raw::fulgwerz_transcribe(
            header,
            nodes.as_ptr(), nodes.len(),
            classes.as_ptr(), classes.len(),
            roots.as_ptr(), roots.len(),
            plains.as_ptr(), plains.len(),
            phones.as_ptr(), phones.len(),
            models.as_mut_ptr(), models.len(),
        )
    }
}

/// The valid combinations of leaves.
pub fn combine(header: Header, tables: Tables, combinations: &mut [u64]) -> CountAnswer {
    let Tables { nodes, classes, roots, plains } = tables;
    unsafe {
        raw::fulgwerz_combine(
            header,
            nodes.as_ptr(), nodes.len(),
            classes.as_ptr(), classes.len(),
            roots.as_ptr(), roots.len(),
            plains.as_ptr(), plains.len(),
            combinations.as_mut_ptr(), combinations.len(),
        )
    }
}

/// Builds the network from tables.
pub fn build(header: Header, tables: Tables, space: Space, turn_limit: u32) -> BuildAnswer {
    let Tables { nodes, classes, roots, plains } = tables;
    let Space { combinations, metastates, arcs } = space;
    unsafe {
        raw::fulgwerz_build(
            header,
            nodes.as_ptr(), nodes.len(),
            classes.as_ptr(), classes.len(),
            roots.as_ptr(), roots.len(),
            plains.as_ptr(), plains.len(),
            combinations.as_mut_ptr(), combinations.len(),
            metastates.as_mut_ptr(), metastates.len(),
            arcs.as_mut_ptr(), arcs.len(),
            turn_limit,
        )
    }
}

/// Reads a tree book and builds its network.
pub fn build_book(text: &[u8], tables: TablesMut, space: Space, turn_limit: u32) -> BuildAnswer {
    let TablesMut { nodes, classes, roots, plains } = tables;
    let Space { combinations, metastates, arcs } = space;
    unsafe {
        raw::fulgwerz_build_book(
            text.as_ptr(), text.len(),
            nodes.as_mut_ptr(), nodes.len(),
            classes.as_mut_ptr(), classes.len(),
            roots.as_mut_ptr(), roots.len(),
            plains.as_mut_ptr(), plains.len(),
            combinations.as_mut_ptr(), combinations.len(),
            metastates.as_mut_ptr(), metastates.len(),
            arcs.as_mut_ptr(), arcs.len(),
            turn_limit,
        )
    }
}

/// The arcs that leave a state, as a part of the lent arcs.
pub fn leaving(counts: Counts, arcs: &[u32], state: u32) -> PartAnswer {
    unsafe { raw::fulgwerz_leaving(counts, arcs.as_ptr(), arcs.len(), state) }
}

/// Writes the text of a network.
pub fn write(counts: Counts, arcs: &[u32], text: &mut [u8]) -> CountAnswer {
    unsafe { raw::fulgwerz_write(counts, arcs.as_ptr(), arcs.len(), text.as_mut_ptr(), text.len()) }
}

/// Reads network text into arcs.
pub fn read_network(text: &[u8], arcs: &mut [u32]) -> NetworkAnswer {
    unsafe { raw::fulgwerz_read_network(text.as_ptr(), text.len(), arcs.as_mut_ptr(), arcs.len()) }
}

/// Reads a word book into a table of words.
pub fn read_words(text: &[u8], table: &mut [u32]) -> CountAnswer {
    unsafe { raw::fulgwerz_read_words(text.as_ptr(), text.len(), table.as_mut_ptr(), table.len()) }
}

/// Joins a network with the words of a word book.
pub fn join(counts: Counts, arcs: &[u32], words: Words, space: Joined) -> JoinAnswer {
    let Words { count, table } = words;
    let Joined { states, arcs: joined } = space;
    unsafe {
        raw::fulgwerz_join(
            counts,
            arcs.as_ptr(), arcs.len(),
            count,
            table.as_ptr(), table.len(),
            states.as_mut_ptr(), states.len(),
            joined.as_mut_ptr(), joined.len(),
        )
    }
}
