//! The verdicts against a brute-force search written from the page's sentence.

mod common;

use common::{random_table, Random};
use second::table::{Kind, Mode, Table};
use second::verdict::response;

/// Ticks demanded within R, found by walking: a timed server of higher
/// priority demands its capacity at every beginning of a period before R; an
/// event one at every beginning before R + T - C.
fn interference(table: &Table, row: usize, mode: usize, r: u32) -> u32 {
    let mut sum = 0;
    for other in &table.servers {
        if other.priority <= table.servers[row].priority {
            continue;
        }
        let mut end = r;
        if other.kind == Kind::Event {
            end += other.period - other.capacity[mode];
        }
        let mut begin = 0;
        while begin < end {
            sum += other.capacity[mode];
            begin += other.period;
        }
    }
    sum
}

fn brute_force(table: &Table, row: usize, mode: usize) -> Option<u32> {
    let capacity = table.servers[row].capacity[mode];
    if capacity == 0 {
        return Some(0);
    }
    (1..=table.servers[row].period).find(|&r| capacity + interference(table, row, mode, r) <= r)
}

#[test]
fn responses_are_those_of_a_search() {
    let mut random = Random(2024);
    let (mut found, mut missed) = (0, 0);
    for _ in 0..20_000 {
        let mut table = random_table(&mut random);
        // Longer periods for some of the rows, so that not all miss.
        for server in &mut table.servers {
            if random.chance(50) {
                server.period *= random.within(1, 30);
            }
        }
        for row in 0..table.servers.len() {
            for mode in Mode::ALL {
                let expected = brute_force(&table, row, mode.index());
                assert_eq!(response(&table, row, mode), expected, "row {row} of {table:?}");
                match expected {
                    Some(_) => found += 1,
                    None => missed += 1,
                }
            }
        }
    }
    assert!(found > 10_000 && missed > 10_000, "{found} found, {missed} missed");
}

#[test]
fn the_longest_period_is_searched_to_its_end() {
    let mut table = common::example();
    table.servers[0].kind = Kind::Timed;
    table.servers[0].period = 2;
    table.servers[0].capacity = [1; 3];
    table.servers[1].capacity = [0; 3];
    table.servers[2].period = 1_000_000;
    table.servers[2].capacity = [500_000, 500_001, 499_999];
    assert_eq!(response(&table, 2, Mode::N), Some(1_000_000));
    assert_eq!(response(&table, 2, Mode::D1), None);
    assert_eq!(response(&table, 2, Mode::D2), Some(999_998));
}
