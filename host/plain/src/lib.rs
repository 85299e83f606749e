//! Documents 01 and 02 written a second time, simply and without proofs, with the entries of `fulgwerz`: what the
//! library's answers and buffers are compared with. Also the generators of tree books and word books, and in `fast` a
//! build, a writer of books and a join written for speed.

pub mod books;
mod book_reader;
mod book_so_far;
mod buffers;
mod building;
mod combinations;
pub mod fast;
mod foreign;
mod in_force;
mod join;
mod leaving;
pub mod limits;
mod lines;
pub mod matrix;
mod network;
mod network_text;
mod plain_form;
pub mod random;
pub mod refusal;
mod trees;
pub mod word_books;
mod words;

pub use book_reader::read;
pub use building::build_book;
pub use combinations::combine;
pub use join::join;
pub use leaving::leaving;
pub use network::build;
pub use network_text::{read_network, write};
pub use plain_form::write_book;
pub use trees::{leaf, leaf_in_list, transcribe};
pub use words::read_words;
