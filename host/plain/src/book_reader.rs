//! Reading a tree book, line by line, in the documents' order of faults.

use crate::book_so_far::BookSoFar;
use crate::buffers::{clear, fill};
use crate::limits::NODE;
use crate::lines::{lines_of, parse, BOOK_FORMS};
use crate::refusal::*;
use fulgwerz::{Header, ReadAnswer, TablesMut};

/// Reads a tree book into the tables.
pub fn read(text: &[u8], tables: TablesMut) -> ReadAnswer {
    let TablesMut { nodes, classes, roots, plains } = tables;
    match read_book(text, [nodes.len(), classes.len(), roots.len(), plains.len()]) {
        Ok(book) => {
            fill(nodes, &book.nodes.concat());
            fill(classes, &book.classes);
            fill(roots, &book.root_words());
            fill(plains, &book.plain_words());
            ReadAnswer { fault: 0, line: 0, header: book.header }
        }
        Err(Refusal { fault, line }) => {
            clear(nodes);
            clear(classes);
            clear(roots);
            clear(plains);
            ReadAnswer { fault, line, header: Header::default() }
        }
    }
}

fn read_book(text: &[u8], lent: [usize; 4]) -> Result<BookSoFar, Refusal> {
    let lines = lines_of(text)?;
    let mut book = BookSoFar::default();
    for (place, line) in lines.iter().enumerate() {
        take(&mut book, place + 1, line, lent).map_err(|fault| Refusal { fault, line: place + 1 })?;
    }
    require_line(book.may_end(), COUNT, lines.len() + 1)?;
    if let Some(line) = book.chained_line() {
        return refuse_line(CHAINED, line);
    }
    match book.named().iter().position(|&times| times != 1) {
        Some(node) => refuse_line(ORPHAN, book.first_node_line + node),
        None => Ok(book),
    }
}

/// Takes one line, or gives its fault.
fn take(book: &mut BookSoFar, number: usize, line: &[u8], lent: [usize; 4]) -> Result<(), u32> {
    let judge = |holds: bool, fault: u32| if holds { Ok(()) } else { Err(fault) };
    judge(!book.is_full(), COUNT)?;
    let (letter, numbers) = parse(line, BOOK_FORMS).ok_or(MISPRINT)?;
    judge(book.may_come(number, letter), ORDER)?;
    judge(book.in_range(letter, &numbers), RANGE)?;
    if letter == b'H' {
        judge(has_room(&numbers, lent), NARROW)?;
    }
    judge(book.in_order(letter, &numbers), ORDER)?;
    judge(letter != b'N' || numbers[3..].iter().all(|&child| child > numbers[0]), BACKWARD)?;
    book.keep(number, letter, &numbers);
    Ok(())
}

/// The four lent tables have room for what the header states.
fn has_room(header: &[u32], lent: [usize; 4]) -> bool {
    let [_, states, phones, classes, nodes] = header[..].try_into().expect("five numbers");
    let needed = [NODE * nodes as usize, classes as usize, (phones * states) as usize, phones as usize];
    lent.iter().zip(needed).all(|(&lent, needed)| lent >= needed)
}
