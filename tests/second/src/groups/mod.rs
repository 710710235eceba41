//! The groups of comparisons. Each is cut into pieces; a piece is made from its number alone,
//! so that the same seed compares the same cases on any number of threads.

pub mod ask;
pub mod centres;
pub mod chains;
pub mod clashes;
pub mod exhaustive;
pub mod faults;
pub mod floors;
pub mod large;
pub mod order_lines;
pub mod orders;
pub mod program;
pub mod rounds;
pub mod sheets;
pub mod small;

use crate::compare::Tally;
use crate::gen::Rng;

/// A group: its name, what it counts, how many pieces it has, and one piece of it.
pub struct Group {
    pub name: &'static str,
    pub counts: &'static str,
    pub pieces: usize,
    /// Whether another seed gives other cases.
    pub random: bool,
    pub piece: fn(&mut Tally, &mut Rng, usize),
}

pub const GROUPS: [Group; 14] = [
    Group {
        name: "exhaustive",
        counts: "networks",
        pieces: exhaustive::PIECES,
        random: false,
        piece: exhaustive::piece,
    },
    Group {
        name: "sizes",
        counts: "cases",
        pieces: faults::SIZE_PIECES,
        random: true,
        piece: faults::sizes_piece,
    },
    Group {
        name: "small",
        counts: "networks",
        pieces: small::PIECES,
        random: true,
        piece: small::piece,
    },
    Group {
        name: "large",
        counts: "networks",
        pieces: large::PIECES,
        random: true,
        piece: large::piece,
    },
    Group {
        name: "rounds",
        counts: "networks",
        pieces: rounds::PIECES,
        random: true,
        piece: rounds::piece,
    },
    Group {
        name: "faults",
        counts: "cases",
        pieces: faults::PIECES,
        random: true,
        piece: faults::piece,
    },
    Group {
        name: "sheets",
        counts: "sheets",
        pieces: sheets::PIECES,
        random: true,
        piece: sheets::piece,
    },
    Group {
        name: "program",
        counts: "sheets",
        pieces: program::PIECES,
        random: true,
        piece: program::piece,
    },
    Group {
        name: "clashes",
        counts: "pairs",
        pieces: clashes::PIECES,
        random: false,
        piece: clashes::piece,
    },
    Group {
        name: "chains",
        counts: "cases",
        pieces: chains::PIECES,
        random: true,
        piece: chains::piece,
    },
    Group { name: "ask", counts: "runs", pieces: ask::PIECES, random: true, piece: ask::piece },
    Group {
        name: "floors",
        counts: "cases",
        pieces: floors::PIECES,
        random: true,
        piece: floors::piece,
    },
    Group {
        name: "centres",
        counts: "blocks",
        pieces: centres::PIECES,
        random: true,
        piece: centres::piece,
    },
    Group {
        name: "orders",
        counts: "cases",
        pieces: orders::PIECES,
        random: true,
        piece: orders::piece,
    },
];
