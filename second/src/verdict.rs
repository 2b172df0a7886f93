//! Verdicts: the response of a server in a mode.

use crate::table::{Kind, Mode, Table};

/// The response of the server in the row, in ticks, or `None` where it misses.
/// The table must keep the rules and have the row.
///
/// The response is the least R from 1 to the period with demand(R) <= R. The
/// demand never falls as R grows, so a bound below the response stays below it
/// when it is raised to the demand at it.
pub fn response(table: &Table, row: usize, mode: Mode) -> Option<u32> {
    let server = &table.servers[row];
    if server.capacity_in(mode) == 0 {
        return Some(0);
    }
    let mut r = 1;
    while r <= u64::from(server.period) {
        let demand = demand(table, row, mode, r);
        if demand <= r {
            return Some(r as u32);
        }
        r = demand;
    }
    None
}

/// C + I(R): the server's own capacity and that of all servers of higher
/// priority within R ticks, all in one mode.
fn demand(table: &Table, row: usize, mode: Mode, r: u64) -> u64 {
    let server = &table.servers[row];
    let mut sum = u64::from(server.capacity_in(mode));
    for other in &table.servers {
        if other.priority > server.priority {
            let period = u64::from(other.period);
            let capacity = u64::from(other.capacity_in(mode));
            let window = match other.kind {
                Kind::Timed => r,
                Kind::Event => r + period - capacity,
            };
            sum += window.div_ceil(period) * capacity;
        }
    }
    sum
}

/// The lines of the `verdicts` program: row, then the response in N, D1, D2.
pub fn lines(table: &Table) -> String {
    let mut lines = String::new();
    for row in 0..table.servers.len() {
        lines.push_str(&row.to_string());
        for mode in Mode::ALL {
            lines.push('\t');
            match response(table, row, mode) {
                Some(r) => lines.push_str(&r.to_string()),
                None => lines.push_str("misses"),
            }
        }
        lines.push('\n');
    }
    lines
}
