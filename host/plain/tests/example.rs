//! Document 01's whole example, by the plain entries.

mod reading;

use fulgwerz::{BuildAnswer, Counts, Space, TablesMut};
use reading::Read;

const BOOK: &str = "\
H     1     1     2     1     4
Q     1     1                  
L     0    10                  
N     1     1     0     2     3
L     2    20                  
L     3    21                  
R     1     1     0            
R     2     1     1            
";

const NETWORK: &str = "\
W     1     4    11            
A     0     2    10     1      
A     2     1     0     0      
A     2     2    10     1      
A     2     3    20     2      
A     3     4    10     1      
A     3     5    21     2      
A     4     1     0     0      
A     4     2    10     1      
A     4     3    20     2      
A     5     4    10     1      
A     5     5    21     2      
";

fn built(combinations: usize, metastates: usize, arcs: usize, turns: u32) -> (BuildAnswer, Vec<u32>) {
    let (mut nodes, mut classes, mut roots, mut plains) = ([7; 20], [7; 1], [7; 2], [7; 2]);
    let mut arc_words = vec![7; 4 * arcs];
    let answer = plain::build_book(
        BOOK.as_bytes(),
        TablesMut { nodes: &mut nodes, classes: &mut classes, roots: &mut roots, plains: &mut plains },
        Space {
            combinations: &mut vec![7; 11 * combinations],
            metastates: &mut vec![7; 8 * metastates],
            arcs: &mut arc_words,
        },
        turns,
    );
    (answer, arc_words)
}

#[test]
fn the_network_is_the_document_s() {
    let (answer, arcs) = built(3, 4, 11, 4);
    assert_eq!(answer.counts, Counts { states: 1, metastates: 4, arcs: 11 });
    assert!(answer.finished);
    let mut text = [7; 32 * 12];
    assert_eq!(plain::write(answer.counts, &arcs, &mut text).count, text.len());
    assert_eq!(std::str::from_utf8(&text), Ok(NETWORK));
    let mut arcs_again = vec![7; arcs.len()];
    assert_eq!(plain::read_network(&text, &mut arcs_again).counts, answer.counts);
    assert_eq!(arcs_again, arcs);
}

#[test]
fn space_and_turns_are_the_document_s() {
    assert_eq!(built(2, 4, 11, 4).0.fault, 30);
    assert_eq!(built(3, 3, 11, 4).0.fault, 31);
    assert_eq!(built(3, 3, 5, 4).0.fault, 31);
    assert_eq!(built(3, 4, 10, 4).0.fault, 32);
    let stopped = built(3, 4, 11, 3).0;
    assert_eq!((stopped.finished, stopped.turns, stopped.counts.arcs), (false, 3, 9));
}

/// With the number of questions that document 02 asks for.
#[test]
fn models_are_the_document_s() {
    let book = Read::new(BOOK.as_bytes());
    let given = |phones: &[u32]| {
        let mut models = [7; 4];
        let answer = plain::transcribe(book.header, book.tables(), phones, &mut models);
        (answer.fault, models[..answer.count].to_vec(), answer.questions)
    };
    assert_eq!(given(&[1]), (0, vec![10], 0));
    assert_eq!(given(&[1, 2, 1]), (0, vec![10, 20, 10], 1));
    assert_eq!(given(&[1, 2, 2, 1]), (0, vec![10, 20, 21, 10], 2));
    assert_eq!(given(&[]), (41, vec![], 0));
    assert_eq!(given(&[2, 1]), (41, vec![], 0));
}
