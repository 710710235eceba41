//! The tables of RULES 3, their sizes and limits, and the network that they describe.

/// The most paths, and the cells of widths, starts and orders.
pub const PATHS: usize = 128;
/// The cells of the guards: 128 for each path.
pub const CELLS: usize = 16_384;
/// The bytes of the labels: eight for each path.
pub const LABELS: usize = 1_024;
/// Bytes of a label's cell.
pub const LABEL: usize = 8;
/// In a cell of the guards: no conflict.
pub const NONE: u8 = 255;

/// The largest width.
pub const MAX_WIDTH: usize = 64;
/// The largest guard.
pub const MAX_GUARD: usize = 32;
/// The largest start.
pub const MAX_START: usize = 16_384;
/// The most guard lines of a sheet.
pub const MAX_PAIRS: usize = 2_000;
/// The most rounds.
pub const MAX_ROUNDS: usize = 10_000;
/// The most entries of a floor's list.
pub const MAX_LIST: usize = 8;
/// The bytes of the longest sheet.
pub const LONGEST_SHEET: usize = 45_489;

/// Where the guard of i and j stands.
pub fn cell(i: usize, j: usize) -> usize {
    PATHS * i + j
}

/// A network that has passed the tests 1 to 5: no table, only what the tables mean.
#[derive(Clone, Debug)]
pub struct Network {
    widths: Vec<usize>,
    guards: Vec<Vec<Option<u8>>>,
}

impl Network {
    /// Reads the first n paths out of the tables, which have their sizes.
    pub fn from_tables(n: usize, widths: &[u16], guards: &[u8]) -> Network {
        let meaning = |value: u8| if value == NONE { None } else { Some(value) };
        let row = |i: usize| (0..n).map(|j| meaning(guards[cell(i, j)])).collect();
        Network {
            widths: (0..n).map(|i| usize::from(widths[i])).collect(),
            guards: (0..n).map(row).collect(),
        }
    }

    /// A network by hand: the widths, and the conflicts with their guards.
    pub fn of(widths: &[usize], conflicts: &[(usize, usize, u8)]) -> Network {
        let mut guards = vec![vec![None; widths.len()]; widths.len()];
        for &(i, j, guard) in conflicts {
            guards[i][j] = Some(guard);
            guards[j][i] = Some(guard);
        }
        Network { widths: widths.to_vec(), guards }
    }

    /// The network of some of the paths alone, numbered as they are listed.
    pub fn part(&self, paths: &[usize]) -> Network {
        let row = |&i: &usize| paths.iter().map(|&j| self.guards[i][j]).collect();
        Network {
            widths: paths.iter().map(|&i| self.widths[i]).collect(),
            guards: paths.iter().map(row).collect(),
        }
    }

    pub fn paths(&self) -> usize {
        self.widths.len()
    }

    pub fn width(&self, i: usize) -> usize {
        self.widths[i]
    }

    /// The guard of a conflict, which may be 0.
    pub fn guard(&self, i: usize, j: usize) -> Option<usize> {
        self.guards[i][j].map(usize::from)
    }

    /// Every conflict once, the lower path first, by first and then second path.
    pub fn conflicts(&self) -> Vec<(usize, usize, usize)> {
        let mut found = Vec::new();
        for i in 0..self.paths() {
            for j in i + 1..self.paths() {
                if let Some(guard) = self.guard(i, j) {
                    found.push((i, j, guard));
                }
            }
        }
        found
    }
}
