//! The four tables of a book as they are lent for one call.

use crate::lending::Lent;
use fulgwerz::{Tables, TablesMut};

pub struct LentTables {
    pub nodes: Lent<u32>,
    pub classes: Lent<u64>,
    pub roots: Lent<u32>,
    pub plains: Lent<u32>,
}

impl LentTables {
    /// So many words of each, to be filled.
    pub fn garbage([nodes, classes, roots, plains]: [usize; 4]) -> LentTables {
        LentTables {
            nodes: Lent::garbage(nodes),
            classes: Lent::garbage(classes),
            roots: Lent::garbage(roots),
            plains: Lent::garbage(plains),
        }
    }

    /// Copies, to be read.
    pub fn holding(tables: Tables) -> LentTables {
        LentTables {
            nodes: Lent::holding(tables.nodes),
            classes: Lent::holding(tables.classes),
            roots: Lent::holding(tables.roots),
            plains: Lent::holding(tables.plains),
        }
    }

    pub fn for_reading(&mut self) -> Tables<'_> {
        let LentTables { nodes, classes, roots, plains } = self;
        Tables { nodes: nodes.part(), classes: classes.part(), roots: roots.part(), plains: plains.part() }
    }

    pub fn for_filling(&mut self) -> TablesMut<'_> {
        let LentTables { nodes, classes, roots, plains } = self;
        TablesMut { nodes: nodes.part(), classes: classes.part(), roots: roots.part(), plains: plains.part() }
    }
}
