//! Whether a table fits, as request No. 5 has it: the marked figures as tables, the
//! least miss told, and the answer against all verdicts written out.

mod common;

use common::{example, random_table, Random};
use second::fits::{first_miss, least_miss, line};
use second::table::{Kind, Level, Mode, Server, Table, Task};
use second::verdict;
use Kind::{Event, Timed};
use Mode::{D1, D2, N};

/// A table of servers given by kind, priority, period and capacities. The last is
/// timed and has the one task.
fn table(servers: &[(Kind, u32, u32, [u32; 3])]) -> Table {
    let servers: Vec<Server> = servers
        .iter()
        .map(|&(kind, priority, period, capacity)| Server {
            partition: 0,
            kind,
            priority,
            period,
            capacity,
            phase: 0,
        })
        .collect();
    let last = servers.len() as u32 - 1;
    let task = Task { home: last, degraded: last, priority: 1, level: Level::Hi, limit: [1, 1, 1] };
    let table = Table { tick: 1000, servers, tasks: vec![task] };
    assert!(table.keeps_the_rules(), "{table:?}");
    table
}

/// The least miss as it is read from the lines of `verdicts`.
fn read_from_verdicts(table: &Table) -> String {
    let lines = verdict::lines(table);
    let rows: Vec<Vec<&str>> = lines.lines().map(|line| line.split('\t').collect()).collect();
    for (column, mode) in [(1, "N"), (2, "D1"), (3, "D2")] {
        if let Some(row) = rows.iter().find(|row| row[column] == "misses") {
            return format!("no\t{mode}\t{}\n", row[0]);
        }
    }
    "yes\n".to_string()
}

#[test]
fn p1_to_p5_the_example_fits() {
    assert_eq!(verdict::lines(&example()), "0\t2\t0\t0\n1\t9\t7\t7\n2\t19\t15\t11\n");
    assert_eq!(line(&example()), "yes\n");
}

#[test]
fn p6_to_p9() {
    let two = |higher: Kind, times: (u32, u32), lower: (u32, u32)| {
        line(&table(&[(higher, 2, times.0, [times.1; 3]), (Timed, 1, lower.0, [lower.1; 3])]))
    };
    assert_eq!(two(Timed, (4, 3), (6, 2)), "no\tN\t1\n");
    assert_eq!(two(Timed, (4, 3), (4, 1)), "yes\n");
    assert_eq!(two(Timed, (4, 3), (3, 1)), "no\tN\t1\n");
    assert_eq!(two(Event, (4, 2), (8, 2)), "yes\n");
}

#[test]
fn the_example_with_a_miss_in_each_mode() {
    // Row 2 has what its period leaves, and then 1 tick more: in N it is 40 less
    // five times 2 of row 0 and twice 5 of row 1, in D1 and D2 40 less twice 7.
    for (mode, most) in [(N, 20), (D1, 26), (D2, 26)] {
        let mut table = example();
        table.servers[2].capacity[mode.index()] = most;
        assert_eq!(line(&table), "yes\n");
        table.servers[2].capacity[mode.index()] = most + 1;
        assert_eq!(line(&table), format!("no\t{}\t2\n", mode.word()));
    }
}

#[test]
fn one_server_always_fits() {
    for period in [1, 2, 1_000_000] {
        assert_eq!(first_miss(&table(&[(Timed, 1, period, [0, 1, period])])), None);
    }
}

#[test]
fn the_least_mode_is_told_before_the_least_row() {
    // Row 0 misses in D1 and D2, row 1 in D2, row 2 in N and D2.
    let mut table = table(&[
        (Timed, 2, 4, [1, 4, 4]),
        (Timed, 3, 4, [1, 1, 4]),
        (Timed, 1, 4, [4, 0, 4]),
        (Timed, 4, 4, [1, 1, 1]),
    ]);
    assert_eq!(first_miss(&table), Some((N, 2)));
    table.servers[2].capacity[0] = 1;
    assert_eq!(first_miss(&table), Some((D1, 0)));
    table.servers[0].capacity[1] = 1;
    assert_eq!(first_miss(&table), Some((D2, 0)));
    table.servers[0].capacity[2] = 0;
    assert_eq!(first_miss(&table), Some((D2, 1)));
    table.servers[1].capacity[2] = 0;
    assert_eq!(first_miss(&table), Some((D2, 2)));
    table.servers[2].capacity[2] = 3;
    assert_eq!(first_miss(&table), None);
}

#[test]
fn rows_are_not_told_by_priority() {
    // All but the highest miss; row 1 is the lowest of them.
    let servers = [
        (Timed, 4, 2, [1; 3]),
        (Timed, 1, 2, [2; 3]),
        (Timed, 3, 2, [2; 3]),
        (Timed, 2, 2, [2; 3]),
    ];
    assert_eq!(first_miss(&table(&servers)), Some((N, 1)));
}

#[test]
fn event_servers_are_looked_at() {
    // As P8, but with an event server below, in row 1 and in row 0.
    let higher = (Timed, 2, 4, [3; 3]);
    let lower = (Event, 1, 3, [1; 3]);
    let task_server = (Timed, 3, 100, [0; 3]);
    assert_eq!(first_miss(&table(&[higher, lower, task_server])), Some((N, 1)));
    assert_eq!(first_miss(&table(&[lower, higher, task_server])), Some((N, 0)));
    // A timed one below an event one: 3 and at R = 4 two turns of 1.
    let higher = (Event, 3, 3, [1; 3]);
    assert_eq!(first_miss(&table(&[higher, (Timed, 2, 4, [3; 3])])), Some((N, 1)));
}

#[test]
fn capacity_0_never_misses() {
    // Above the last row the event server asks for 2 at R = 0 already, and both
    // for more than R at every R up to its period.
    let mut table =
        table(&[(Event, 3, 4, [2; 3]), (Timed, 2, 8, [2; 3]), (Timed, 1, 3, [0, 0, 0])]);
    assert_eq!(line(&table), "yes\n");
    for mode in Mode::ALL {
        table.servers[2].capacity[mode.index()] = 1;
        assert_eq!(first_miss(&table), Some((mode, 2)));
        table.servers[2].capacity[mode.index()] = 0;
    }
}

#[test]
fn nothing_is_asked_after_the_first_miss() {
    let asked_until = |miss: Option<(Mode, usize)>| {
        let mut asked = Vec::new();
        let told = least_miss(2, |mode, row| {
            asked.push((mode, row));
            Some((mode, row)) == miss
        });
        assert_eq!(told, miss);
        asked
    };
    let all = [(N, 0), (N, 1), (D1, 0), (D1, 1), (D2, 0), (D2, 1)];
    assert_eq!(asked_until(None), all);
    for (before, &miss) in all.iter().enumerate() {
        assert_eq!(asked_until(Some(miss)), all[..=before]);
    }
}

#[test]
fn the_answer_is_the_one_read_from_all_verdicts() {
    let mut random = Random(505);
    let mut seen = [0; 4];
    for _ in 0..20_000 {
        let mut table = random_table(&mut random);
        for server in &mut table.servers {
            if random.chance(70) {
                server.period *= random.within(1, 30);
            }
            if random.chance(30) {
                server.capacity[random.within(0, 2) as usize] = 0;
            }
        }
        let expected = read_from_verdicts(&table);
        assert_eq!(line(&table), expected, "{table:?}");
        seen[first_miss(&table).map_or(3, |(mode, _)| mode.index())] += 1;
    }
    assert!(seen.iter().all(|&count| count > 500), "{seen:?}");
}
