//! What several test files share.
#![allow(dead_code)]

use second::night;
use second::run::Run;
use second::table::{Kind, Level, Server, Table, Task};
use second::text;

/// The page's example table.
pub const EXAMPLE: &str = "\
tick\t1000
server\t0\tevent\t30\t10000\t2000\t0\t0
server\t0\ttimed\t20\t20000\t5000\t7000\t7000
server\t1\ttimed\t10\t40000\t8000\t8000\t4000
task\t0\t1\t50\tHI\t1000\t2000\t3000
task\t1\t1\t40\tMI\t3000\t4000\t4000
task\t2\t2\t10\tLO\t2000\t2000\t2000
";

pub fn example() -> Table {
    text::read(EXAMPLE.as_bytes()).expect("the example is a good table")
}

/// What `night` prints for a table and event lines.
pub fn night(table: &str, events: &[u8]) -> String {
    let mut out = Vec::new();
    match text::read(table.as_bytes()) {
        Err(refusal) => out.extend_from_slice(format!("{refusal}\n").as_bytes()),
        Ok(table) => {
            let mut events = events;
            night::answer_events(&mut Run::fresh(table), &mut events, &mut out).unwrap();
        }
    }
    String::from_utf8(out).unwrap()
}

/// A splitmix64 generator.
pub struct Random(pub u64);

impl Random {
    pub fn next(&mut self) -> u64 {
        self.0 = self.0.wrapping_add(0x9e37_79b9_7f4a_7c15);
        let mut z = self.0;
        z = (z ^ (z >> 30)).wrapping_mul(0xbf58_476d_1ce4_e5b9);
        z = (z ^ (z >> 27)).wrapping_mul(0x94d0_49bb_1331_11eb);
        z ^ (z >> 31)
    }

    /// A number from low to high, both included.
    pub fn within(&mut self, low: u32, high: u32) -> u32 {
        low + (self.next() % u64::from(high - low + 1)) as u32
    }

    pub fn chance(&mut self, percent: u32) -> bool {
        self.within(1, 100) <= percent
    }
}

/// A random table with small numbers that keeps the rules.
pub fn random_table(random: &mut Random) -> Table {
    let server_count = random.within(1, 5);
    let mut servers: Vec<Server> = Vec::new();
    for row in 0..server_count {
        let period = random.within(1, 12);
        servers.push(Server {
            partition: random.within(0, 1),
            kind: if random.chance(50) && row > 0 { Kind::Event } else { Kind::Timed },
            priority: 1 + (row * 7 + 3) % 11,
            period,
            capacity: [0; 3].map(|_| random.within(0, period)),
            phase: random.within(0, period - 1),
        });
    }
    let mut tasks = Vec::new();
    for row in 0..random.within(1, 6) {
        let degraded = loop {
            let row = random.within(0, server_count - 1);
            if servers[row as usize].kind == Kind::Timed {
                break row;
            }
        };
        let homes: Vec<u32> = (0..server_count)
            .filter(|&home| {
                servers[home as usize].partition == servers[degraded as usize].partition
                    && (servers[home as usize].kind == Kind::Event || home == degraded)
            })
            .collect();
        let n = random.within(1, 4);
        let d1 = n + random.within(0, 2);
        let d2 = d1 + random.within(0, 2);
        tasks.push(Task {
            home: homes[random.within(0, homes.len() as u32 - 1) as usize],
            degraded,
            priority: 1 + (row * 5 + 2) % 7,
            level: [Level::Lo, Level::Lo, Level::Mi, Level::Hi, Level::Hi]
                [random.within(0, 4) as usize],
            limit: [n, d1, d2],
        });
    }
    let table = Table { tick: random.within(1, 1000), servers, tasks };
    assert!(table.keeps_the_rules(), "{table:?}");
    table
}
