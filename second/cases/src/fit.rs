//! Whether a table fits, as its page of verdicts has it: the least miss, and what
//! is to be seen of tables that fit and of tables that miss. No verdict is worked
//! out here.

use crate::judged::MODES;

/// What must be seen, as [`Page::names`] has it.
pub const WANTED: [&str; 24] = [
    "fits, of 1 server",
    "fits, of 2 to 8 servers",
    "fits, of 32 servers",
    "misses in N only",
    "misses in D1 only",
    "misses in D2 only",
    "misses in N and D1 only",
    "misses in N and D2 only",
    "misses in D1 and D2 only",
    "misses in N and D1 and D2",
    "misses in one row",
    "misses in several rows",
    "misses in one row in the mode told",
    "misses in several rows in the mode told",
    "misses in a lesser row in a later mode",
    "miss told of row 0",
    "miss told of a row in between",
    "miss told of the last row",
    "miss told of an event server",
    "miss told of a timed server",
    "fits, with capacity 0 below an event server",
    "fits, with capacity 0 that would miss if searched",
    "miss told after capacity 0 below an event server",
    "miss told after capacity 0 that would miss if searched",
];
/// The most servers that count as few, and the most there are.
const FEW: usize = 8;
const MOST: usize = 32;

/// A server row as text and page have it, its times in ticks.
struct Row {
    timed: bool,
    priority: u64,
    period: u64,
    capacity: [u64; 3],
    /// The response in each mode, or `None` where it misses.
    verdict: [Option<u64>; 3],
}

/// The page of verdicts of a table that was taken.
pub struct Page {
    rows: Vec<Row>,
}

impl Page {
    /// The page of a table's text, if the table was taken.
    pub fn of(table: &[u8], verdicts: &[u8]) -> Option<Page> {
        if verdicts.starts_with(b"table\t") {
            return None;
        }
        let (table, verdicts) =
            (std::str::from_utf8(table).ok()?, std::str::from_utf8(verdicts).ok()?);
        let tick: u64 = table.lines().next()?.strip_prefix("tick\t")?.parse().ok()?;
        let servers = table.lines().filter_map(|line| line.strip_prefix("server\t"));
        let rows: Option<Vec<Row>> = servers
            .zip(verdicts.lines())
            .map(|(server, line)| row_of(server, line, tick))
            .collect();
        Some(Page { rows: rows? })
    }

    /// The least miss, a mode and a row: the least mode, and there the least row.
    pub fn told(&self) -> Option<(usize, usize)> {
        let all = (0..3).flat_map(|mode| (0..self.rows.len()).map(move |row| (mode, row)));
        all.into_iter().find(|&(mode, row)| self.misses(mode, row))
    }

    /// What `fits` must print.
    pub fn line(&self) -> String {
        match self.told() {
            None => "yes\n".to_string(),
            Some((mode, row)) => format!("no\t{}\t{row}\n", MODES[mode]),
        }
    }

    /// What `states` must print for `fits` and `fits_state`.
    pub fn states_line(&self) -> String {
        match self.told() {
            None => "fits\t1\t0\t0\n".to_string(),
            Some((mode, row)) => format!("fits\t0\t{mode}\t{row}\n"),
        }
    }

    /// The names of what was seen.
    pub fn names(&self) -> Vec<String> {
        let mut names = self.names_of_capacity_0();
        let Some((mode, row)) = self.told() else {
            names.extend(match self.rows.len() {
                1 => Some("fits, of 1 server".to_string()),
                2..=FEW => Some(format!("fits, of 2 to {FEW} servers")),
                MOST => Some(format!("fits, of {MOST} servers")),
                _ => None,
            });
            return names;
        };
        names.push(self.modes_that_miss());

        let missing = |modes: &[usize]| -> Vec<usize> {
            let rows = 0..self.rows.len();
            rows.filter(|&row| modes.iter().any(|&mode| self.misses(mode, row))).collect()
        };
        let (anywhere, in_mode) = (missing(&[0, 1, 2]), missing(&[mode]));
        let number = |rows: &[usize]| if rows.len() == 1 { "one row" } else { "several rows" };
        names.push(format!("misses in {}", number(&anywhere)));
        names.push(format!("misses in {} in the mode told", number(&in_mode)));
        if anywhere[0] < row {
            names.push("misses in a lesser row in a later mode".to_string());
        }

        let place = match row {
            0 => "row 0",
            _ if row + 1 == self.rows.len() => "the last row",
            _ => "a row in between",
        };
        let kind = if self.rows[row].timed { "a timed server" } else { "an event server" };
        names.push(format!("miss told of {place}"));
        names.push(format!("miss told of {kind}"));
        names
    }

    fn misses(&self, mode: usize, row: usize) -> bool {
        self.rows[row].verdict[mode].is_none()
    }

    fn modes_that_miss(&self) -> String {
        let modes: Vec<&str> = (0..3)
            .filter(|&mode| (0..self.rows.len()).any(|row| self.misses(mode, row)))
            .map(|mode| MODES[mode])
            .collect();
        let only = if modes.len() < 3 { " only" } else { "" };
        format!("misses in {}{only}", modes.join(" and "))
    }

    /// The rows of capacity 0 that come before the miss told, or all of them where
    /// the table fits, by what they would be if capacity 0 were not its own case.
    fn names_of_capacity_0(&self) -> Vec<String> {
        let told = self.told();
        let (mut below_event, mut searched) = (false, false);
        for mode in 0..3 {
            for (row, server) in self.rows.iter().enumerate() {
                if server.capacity[mode] == 0 && told.is_none_or(|told| (mode, row) < told) {
                    below_event |= self.is_below_event(mode, server);
                    searched |= self.would_miss(mode, server);
                }
            }
        }
        let start = if told.is_none() { "fits, with" } else { "miss told after" };
        let mut names = Vec::new();
        if below_event {
            names.push(format!("{start} capacity 0 below an event server"));
        }
        if searched {
            names.push(format!("{start} capacity 0 that would miss if searched"));
        }
        names
    }

    /// The rows above a server.
    fn above<'a>(&'a self, server: &'a Row) -> impl Iterator<Item = &'a Row> {
        self.rows.iter().filter(|other| other.priority > server.priority)
    }

    /// Whether an event server above adds its capacity at R = 0 already.
    fn is_below_event(&self, mode: usize, server: &Row) -> bool {
        self.above(server)
            .any(|other| !other.timed && (1..other.period).contains(&other.capacity[mode]))
    }

    /// Whether no R up to the period can meet what those above ask for: one of
    /// them is met later than that, or not within a period as long.
    fn would_miss(&self, mode: usize, server: &Row) -> bool {
        self.above(server).any(|other| match other.verdict[mode] {
            Some(response) => server.period < response,
            None => server.period <= other.period,
        })
    }
}

/// The row of a server line after its leading word, and of a line of the page.
fn row_of(server: &str, line: &str, tick: u64) -> Option<Row> {
    let fields: Vec<&str> = server.split('\t').collect();
    let [_, kind, priority, times @ ..] = fields.as_slice() else { return None };
    let times: Option<Vec<u64>> = times.iter().map(|time| Some(ticks(time)? / tick)).collect();
    // A phase changes no verdict.
    let (&[period, n, d1, d2] | &[period, n, d1, d2, _]) = times?.as_slice() else { return None };
    let verdicts: Vec<Option<u64>> = line.split('\t').skip(1).map(ticks).collect();
    Some(Row {
        timed: *kind == "timed",
        priority: ticks(priority)?,
        period,
        capacity: [n, d1, d2],
        verdict: verdicts.try_into().ok()?,
    })
}

/// A number, or nothing for `misses`.
fn ticks(field: &str) -> Option<u64> {
    field.parse().ok()
}

#[cfg(test)]
mod tests {
    use super::{Page, WANTED};

    const TABLE: &str = "\
tick\t10
server\t0\tevent\t3\t40\t20\t0\t20
server\t0\ttimed\t1\t10\t0\t10\t0
server\t0\ttimed\t2\t80\t20\t80\t20
task\t1\t1\t1\tLO\t10\t10\t10
";

    fn names(verdicts: &str) -> Vec<String> {
        let page = Page::of(TABLE.as_bytes(), verdicts.as_bytes()).unwrap();
        let names = page.names();
        assert!(names.iter().all(|name| WANTED.contains(&name.as_str())), "{names:?}");
        names
    }

    #[test]
    fn a_table_that_fits() {
        let seen = names("0\t2\t0\t2\n1\t0\t1\t0\n2\t6\t8\t6\n");
        let expected = [
            "fits, with capacity 0 below an event server",
            "fits, with capacity 0 that would miss if searched",
            "fits, of 2 to 8 servers",
        ];
        assert_eq!(seen, expected);
    }

    #[test]
    fn a_table_that_misses() {
        let verdicts = "0\t2\t0\t2\n1\t0\tmisses\t0\n2\tmisses\t8\t6\n";
        let expected = [
            "miss told after capacity 0 below an event server",
            "miss told after capacity 0 that would miss if searched",
            "misses in N and D1 only",
            "misses in several rows",
            "misses in one row in the mode told",
            "misses in a lesser row in a later mode",
            "miss told of the last row",
            "miss told of a timed server",
        ];
        assert_eq!(names(verdicts), expected);
        let page = Page::of(TABLE.as_bytes(), verdicts.as_bytes()).unwrap();
        assert_eq!(page.line(), "no\tN\t2\n");
        assert_eq!(page.states_line(), "fits\t0\t0\t2\n");
    }

    #[test]
    fn the_least_mode_is_told_and_then_the_least_row() {
        let told = |verdicts: &str| Page::of(TABLE.as_bytes(), verdicts.as_bytes()).unwrap().told();
        assert_eq!(told("0\t2\t0\t2\n1\t0\t1\t0\n2\t6\t8\t6\n"), None);
        assert_eq!(told("0\t2\t0\tmisses\n1\t0\tmisses\t0\n2\t6\tmisses\t6\n"), Some((1, 1)));
        assert_eq!(told("0\t2\t0\tmisses\n1\t0\t1\t0\n2\t6\t8\tmisses\n"), Some((2, 0)));
        assert!(Page::of(b"tick\t0\n", b"table\tno\t2\t1\t1\n").is_none());
    }
}
