//! What differs first between two books that are not the same, in words.

use crate::books::Book;
use crate::buffers::Node;
use fulgwerz::Header;

/// Three lines: what differs, and how it is in each of the books.
pub fn first(one: &Book, other: &Book) -> String {
    let difference = header_difference(one.header, other.header)
        .or_else(|| boundary_difference(one, other))
        .or_else(|| forest_difference(one, other));
    match difference {
        Some((what, here, there)) => format!("  {what}\n  {}{here}\n  {}{there}\n", one.text.name, other.text.name),
        None => "  nothing is found that differs: a mistake in hc, not in the books\n".to_string(),
    }
}

/// What differs, and what follows the name of each book.
type Difference = (String, String, String);

fn header_difference(one: Header, other: Header) -> Option<Difference> {
    let numbers = [
        ("half-widths", "half-width", one.half, other.half),
        ("states of a phone", "states", one.states, other.states),
        ("phones", "phones", one.phones, other.phones),
    ];
    let (many, word, one, other) = numbers.into_iter().find(|(.., one, other)| one != other)?;
    Some((format!("the {many} differ"), format!(": {word} {one}"), format!(": {word} {other}")))
}

/// Both books have as many phones.
fn boundary_difference(one: &Book, other: &Book) -> Option<Difference> {
    let phone = (1..=one.header.phones).find(|&phone| one.tables.plain(phone) != other.tables.plain(phone))?;
    let shown = |book: &Book| match book.tables.plain(phone) {
        Some(plain) => format!(": it takes the trees of phone {plain}"),
        None => ": it has no B line".to_string(),
    };
    Some((format!("the B lines of phone {phone} differ"), shown(one), shown(other)))
}

/// Both books have as many phones and states, and the same B lines.
fn forest_difference(one: &Book, other: &Book) -> Option<Difference> {
    let Header { states, phones, .. } = one.header;
    for place in 0..phones * states {
        let (phone, state) = (place / states + 1, place % states + 1);
        let roots = match (one.tables.root(place), other.tables.root(place)) {
            (None, None) => continue,
            (Some(root), Some(other_root)) => (root, other_root),
            (root, _) => return Some(root_lines_difference(phone, root.is_some())),
        };
        if let Some((what, (node, other_node))) = tree_difference(one, other, roots) {
            return Some((
                format!("the trees of phone {phone}, state {state} differ: {what}"),
                format!(", node {node}: {}", describe(&one.tables.node(node))),
                format!(", node {other_node}: {}", describe(&other.tables.node(other_node))),
            ));
        }
    }
    None
}

/// One book has R lines of the phone, which has a B line in both, and the other has none.
fn root_lines_difference(phone: u32, in_one: bool) -> Difference {
    let shown = |has_them: bool| if has_them { ": it has R lines too" } else { ": it has a B line alone" }.to_string();
    (format!("the R lines of phone {phone} differ"), shown(in_one), shown(!in_one))
}

/// The first difference from the roots down, yes before no, and the nodes where it is.
fn tree_difference(one: &Book, other: &Book, roots: (u32, u32)) -> Option<(&'static str, (u32, u32))> {
    let mut waiting = vec![roots];
    while let Some(nodes) = waiting.pop() {
        let (here, there) = (one.tables.node(nodes.0), other.tables.node(nodes.1));
        if let Some(what) = node_difference(&here, &there) {
            return Some((what, nodes));
        }
        if let (Node::Question { yes, no, .. }, Node::Question { yes: other_yes, no: other_no, .. }) = (here, there) {
            waiting.push((no, other_no));
            waiting.push((yes, other_yes));
        }
    }
    None
}

/// What differs between two nodes, whatever is below them.
fn node_difference(one: &Node, other: &Node) -> Option<&'static str> {
    match (one, other) {
        (Node::Leaf { model }, Node::Leaf { model: other }) => (model != other).then_some("another model"),
        (Node::Question { .. }, Node::Leaf { .. }) => Some("a question against a leaf"),
        (Node::Leaf { .. }, Node::Question { .. }) => Some("a leaf against a question"),
        (Node::Question { position, .. }, Node::Question { position: other, .. }) if position != other => {
            Some("another position")
        }
        (Node::Question { members, .. }, Node::Question { members: other, .. }) => {
            (members != other).then_some("another set of phones")
        }
    }
}

fn describe(node: &Node) -> String {
    match *node {
        Node::Leaf { model } => format!("a leaf with model {model}"),
        Node::Question { members, position, .. } => {
            let phones: Vec<String> =
                (1..=64).filter(|phone| members >> (phone - 1) & 1 == 1).map(|phone| phone.to_string()).collect();
            let asked = match phones.as_slice() {
                [] => "in a class without members".to_string(),
                [phone] => format!("phone {phone}"),
                phones => format!("one of {}", phones.join(" ")),
            };
            format!("is the phone at position {position} {asked}?")
        }
    }
}
