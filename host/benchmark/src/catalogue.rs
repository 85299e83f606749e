//! The books that are measured. Those that are built stay within 65535 metastates and 999999 arcs.

use plain::books::boundaries::all_like_silence;
use plain::books::ceilings::{deepest_tree, deepest_tree_of_no, most_classes};
use plain::books::recipes::{apart, grown, question_free, resolving, Grown};
use plain::books::respelling::respelled;
use plain::books::Book;
use plain::random::Random;

pub struct Measured {
    pub name: String,
    pub kind: &'static str,
    pub book: Book,
}

pub fn catalogue() -> Vec<Measured> {
    let mut books = Vec::new();
    add_triphones(&mut books);
    add_wider(&mut books);
    add_question_free(&mut books);
    add_products(&mut books);
    add_apart(&mut books);
    add_growing(&mut books);
    books
}

/// The books that are written: a usual one, 4096 nodes with 255 classes of different members, and trees 2047 deep. Each
/// is spelled at random, as it may come by mail.
pub fn written() -> Vec<Measured> {
    let usual = catalogue().swap_remove(0);
    let mut books = vec![usual];
    for (name, book) in
        [("most-classes", most_classes()), ("deepest-yes", deepest_tree()), ("deepest-no", deepest_tree_of_no())]
    {
        add(&mut books, "books at the ceilings", name.into(), book);
    }
    let mut random = Random::new(1);
    books.iter_mut().for_each(|measured| measured.book = respelled(&measured.book, &mut random));
    books
}

/// The books by which phones are transcribed: some of those that are built, one of them without questions.
pub fn transcribed() -> Vec<Measured> {
    let mut books = catalogue();
    let names = ["triphone-40", "triphone-64", "quinphone-20", "septaphone-15", "free-1-64"];
    books.retain(|measured| names.contains(&measured.name.as_str()));
    books
}

fn add(books: &mut Vec<Measured>, kind: &'static str, name: String, book: Book) {
    books.push(Measured { name, kind, book });
}

/// Half-width 1, three trees a phone: the usual book. The more phones, the less room for questions to the right.
fn add_triphones(books: &mut Vec<Measured>) {
    let triphone = |phones, positions, leaves| {
        grown(Grown { half: 1, states: 3, phones, classes: 100, positions, leaves, seed: 1 })
    };
    let kind = "triphone books";
    add(books, kind, "triphone-40".into(), triphone(40, &[0, 2], 17));
    add(books, kind, "triphone-48".into(), triphone(48, &[0, 0, 2], 14));
    add(books, kind, "triphone-64".into(), triphone(64, &[0, 0, 0, 0, 0, 2], 10));
}

/// Half-widths 2 and 3. At 31 and 15 phones all questions are to the left, since there is no room for others.
fn add_wider(books: &mut Vec<Measured>) {
    let wider = |half, phones, positions, leaves, seed| {
        grown(Grown { half, states: 3, phones, classes: 60, positions, leaves, seed })
    };
    let kind = "wider books";
    add(books, kind, "quinphone-12".into(), wider(2, 12, &[0, 1, 3, 4], 10, 1));
    add(books, kind, "quinphone-20".into(), wider(2, 20, &[0, 0, 0, 1, 1, 1, 3, 4], 4, 1));
    add(books, kind, "quinphone-31".into(), wider(2, 31, &[0, 1], 20, 1));
    add(books, kind, "septaphone-6".into(), wider(3, 6, &[0, 1, 2, 4, 5, 6], 6, 2));
    add(books, kind, "septaphone-10".into(), wider(3, 10, &[0, 1, 2, 0, 1, 2, 4], 5, 1));
    add(books, kind, "septaphone-15".into(), wider(3, 15, &[0, 1, 2], 20, 1));
}

/// No questions, with as many phones as the ceilings let finish.
fn add_question_free(books: &mut Vec<Measured>) {
    for (half, phones) in [(0, 64), (1, 64), (2, 31), (3, 15)] {
        add(books, "question-free books", format!("free-{half}-{phones}"), question_free(half, 3, phones));
    }
}

/// Tens of thousands of combinations: for each phone one for each pair of phones at two positions.
fn add_products(books: &mut Vec<Measured>) {
    add(books, "books of many combinations", "left-right-31".into(), resolving(1, 3, 31, &[0, 2]));
    add(books, "books of many combinations", "left-left-31".into(), resolving(2, 3, 31, &[0, 1]));
}

/// Of the leaves of two trees each meets one alone; with every other it has an empty column: the first or second of
/// five, the first of three, the last of three. In the first book all phones take silence's trees.
fn add_apart(books: &mut Vec<Measured>) {
    let kind = "books whose leaf pairs have nothing in common";
    add(books, kind, "apart-left-26".into(), all_like_silence(apart(2, 3, 26, &[0, 1]), false));
    add(books, kind, "apart-own-25".into(), apart(1, 3, 25, &[0]));
    add(books, kind, "apart-right-25".into(), apart(1, 3, 25, &[2]));
}

/// The same recipes with more and more phones: arcs about double from one to the next.
fn add_growing(books: &mut Vec<Measured>) {
    for phones in [8, 10, 13, 16, 20, 25, 32, 40] {
        let recipe = Grown { half: 1, states: 3, phones, classes: 100, positions: &[0, 2], leaves: 8, seed: 1 };
        add(books, "growing triphone books", format!("growing-{phones}"), grown(recipe));
    }
    for phones in [8, 10, 13, 16, 20, 25] {
        let kind = "growing numbers of combinations";
        add(books, kind, format!("left-right-{phones}"), resolving(1, 3, phones, &[0, 2]));
    }
}
