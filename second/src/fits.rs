//! Whether a table fits: whether no server misses in any of the three modes.

use crate::table::{Mode, Table};
use crate::verdict;

/// The least miss of the table, or `None` where it fits. The table must keep the
/// rules.
pub fn first_miss(table: &Table) -> Option<(Mode, usize)> {
    least_miss(table.servers.len(), |mode, row| verdict::response(table, row, mode).is_none())
}

/// The least miss of so many rows: of the least mode in the order N, D1, D2, and
/// there of the least row. After the first miss nothing more is asked.
pub fn least_miss(
    rows: usize,
    mut misses: impl FnMut(Mode, usize) -> bool,
) -> Option<(Mode, usize)> {
    for mode in Mode::ALL {
        for row in 0..rows {
            if misses(mode, row) {
                return Some((mode, row));
            }
        }
    }
    None
}

/// The line of the `fits` program: `yes`, or `no` with the mode and the row.
pub fn line(table: &Table) -> String {
    match first_miss(table) {
        None => "yes\n".to_string(),
        Some((mode, row)) => format!("no\t{}\t{row}\n", mode.word()),
    }
}
