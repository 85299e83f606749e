//! Matrices: 2n+1 columns, each a set of phones.

use fulgwerz::Header;

pub type Matrix = Vec<u64>;

pub fn all_phones(header: Header) -> u64 {
    (1..=header.phones).map(|phone| 1 << (phone - 1)).sum()
}

/// All phones in every column but the centre, which has the phone alone.
pub fn root_matrix(header: Header, phone: u32) -> Matrix {
    let half = header.half as usize;
    let mut matrix = vec![all_phones(header); 2 * half + 1];
    matrix[half] = 1 << (phone - 1);
    matrix
}

/// What the meeting of two matrices gives.
#[derive(Debug, PartialEq, Eq)]
pub struct Meeting {
    /// What the columns have in common; all columns are empty where one is.
    pub matrix: Matrix,
    /// How many columns were met, the empty one counted.
    pub columns: usize,
}

/// From column 0 up, to the first empty column or the last.
pub fn meet(one: &Matrix, other: &Matrix) -> Meeting {
    let mut matrix = Vec::new();
    for (column, another) in one.iter().zip(other) {
        matrix.push(column & another);
        if column & another == 0 {
            return Meeting { columns: matrix.len(), matrix: vec![0; one.len()] };
        }
    }
    Meeting { columns: matrix.len(), matrix }
}

/// No column is empty.
pub fn is_valid(matrix: &Matrix) -> bool {
    matrix.iter().all(|&column| column != 0)
}

/// Column c takes old column c+1, the last takes all phones.
pub fn shift(header: Header, matrix: &Matrix) -> Matrix {
    let mut shifted = matrix[1..].to_vec();
    shifted.push(all_phones(header));
    shifted
}

/// The seven words of a matrix, the unused ones 0.
pub fn words_of(matrix: &Matrix) -> [u64; 7] {
    let mut words = [0; 7];
    words[..matrix.len()].copy_from_slice(matrix);
    words
}
