//! Good tables, small ones and ones at the page's bounds.

use crate::random::Random;

pub const MAX_TICK: u64 = 10_000;
pub const MAX_PERIOD: u64 = 1_000_000;
pub const MAX_LIMIT: u64 = 100_000;
pub const MAX_PRIORITY: u64 = 255;
pub const MAX_SERVERS: usize = 32;
pub const MAX_TASKS: usize = 64;

/// A server row, in ticks. The phase may be absent, and may be 0 and there all the
/// same.
#[derive(Clone)]
pub struct Server {
    pub partition: u64,
    pub timed: bool,
    pub priority: u64,
    pub period: u64,
    pub capacity: [u64; 3],
    pub phase: Option<u64>,
}

/// A task row. The times are in microseconds, as they stand in the text.
#[derive(Clone)]
pub struct Task {
    pub home: usize,
    pub degraded: usize,
    pub priority: u64,
    pub level: &'static str,
    pub time: [u64; 3],
}

#[derive(Clone)]
pub struct Table {
    pub tick: u64,
    pub servers: Vec<Server>,
    pub tasks: Vec<Task>,
}

/// A line as fields, to be parted by tabs.
pub type Line = Vec<Vec<u8>>;

impl Table {
    pub fn lines(&self) -> Vec<Line> {
        let mut lines = vec![line_of(&[&"tick", &self.tick])];
        for server in &self.servers {
            let kind = if server.timed { "timed" } else { "event" };
            let [n, d1, d2] = server.capacity.map(|ticks| ticks * self.tick);
            let period = server.period * self.tick;
            let mut line = line_of(&[
                &"server",
                &server.partition,
                &kind,
                &server.priority,
                &period,
                &n,
                &d1,
                &d2,
            ]);
            line.extend(server.phase.map(|phase| number(phase * self.tick)));
            lines.push(line);
        }
        for task in &self.tasks {
            let [n, d1, d2] = task.time;
            lines.push(line_of(&[
                &"task",
                &task.home,
                &task.degraded,
                &task.priority,
                &task.level,
                &n,
                &d1,
                &d2,
            ]));
        }
        lines
    }
}

pub fn number(number: u64) -> Vec<u8> {
    number.to_string().into_bytes()
}

pub fn line_of(fields: &[&dyn std::fmt::Display]) -> Line {
    fields.iter().map(|field| field.to_string().into_bytes()).collect()
}

/// The text of lines, each closed.
pub fn text_of(lines: &[Line]) -> Vec<u8> {
    let mut text = Vec::new();
    for line in lines {
        text.extend_from_slice(&line.join(&b'\t'));
        text.push(b'\n');
    }
    text
}

/// How a table's numbers are drawn.
struct Shape {
    servers: usize,
    tasks: usize,
    partitions: u64,
    longest_period: u64,
    longest_limit: u64,
}

/// A small table: 1 to 4 servers and 1 to 6 tasks.
pub fn small(random: &mut Random) -> Table {
    let shape = Shape {
        servers: random.within(1, 4) as usize,
        tasks: random.within(1, 6) as usize,
        partitions: random.pick(&[1, 1, 2, 2, 3]),
        longest_period: random.pick(&[3, 6, 12, 12, 20]),
        longest_limit: random.pick(&[1, 2, 3, 3, 5]),
    };
    draw(&shape, random)
}

/// A table of some more rows.
pub fn middle(random: &mut Random) -> Table {
    let shape = Shape {
        servers: random.within(4, 12) as usize,
        tasks: random.within(5, 20) as usize,
        partitions: random.within(1, 6),
        longest_period: random.pick(&[12, 40, 200]),
        longest_limit: random.pick(&[2, 4, 8]),
    };
    draw(&shape, random)
}

/// A table with a row of every sort, so that every damage finds its place.
pub fn rich(random: &mut Random) -> Table {
    let mut table = draw(
        &Shape {
            servers: random.within(5, 8) as usize,
            tasks: random.within(3, 8) as usize,
            partitions: 2,
            longest_period: 12,
            longest_limit: 5,
        },
        random,
    );
    if table.tick == 1 {
        let tick = random.pick(&[2, 10, 1000, 10_000]);
        for task in &mut table.tasks {
            task.time = task.time.map(|time| time * tick);
        }
        table.tick = tick;
    }
    // An event server with two timed ones beside it, one of each kind elsewhere.
    let rows = [(0, 0, false), (1, 0, true), (2, 0, true), (3, 1, true), (4, 1, false)];
    for (row, partition, timed) in rows {
        table.servers[row].partition = partition;
        table.servers[row].timed = timed;
    }
    for row in rows.len()..table.servers.len() {
        table.servers[row].partition = random.within(0, 1);
    }
    for row in 0..table.tasks.len() {
        let (home, degraded) = draw_servers(&table.servers, random);
        table.tasks[row].home = home;
        table.tasks[row].degraded = degraded;
    }
    table.tasks[0].home = 0;
    table.tasks[0].degraded = random.pick(&[1, 2]);
    table.tasks[1].home = 1;
    table.tasks[1].degraded = 1;
    table
}

/// A table that serves every job in the end, in each mode, as its servers share
/// all ticks evenly. So the box comes back to N when no job is released, and
/// rises again. Two tasks at least are LO and one is MI, and the highest is HI, so
/// that LO jobs wait while it overruns and takes the mode to D2.
pub fn serving(random: &mut Random) -> Table {
    let shape = Shape {
        servers: random.within(2, 5) as usize,
        tasks: random.within(4, 8) as usize,
        partitions: random.pick(&[1, 1, 2]),
        longest_period: 1,
        longest_limit: random.pick(&[1, 2, 3]),
    };
    let mut table = draw(&shape, random);
    let share = random.within(1, 3);
    let period = share * table.servers.len() as u64;
    for server in &mut table.servers {
        server.period = period;
        server.capacity = [share; 3];
        if !server.timed {
            // Its tasks are elsewhere in D1 and D2.
            server.capacity[1] = random.within(0, share);
            server.capacity[2] = random.within(0, share);
        }
    }
    let mut rows: Vec<usize> = (0..table.tasks.len()).collect();
    random.shuffle(&mut rows);
    for (&row, level) in rows.iter().zip(["HI", "LO", "LO", "MI"]) {
        table.tasks[row].level = level;
    }
    give_task_priority(&mut table, rows[0], MAX_PRIORITY);
    table
}

/// The modes in which a table of [`fit_or_miss`] misses, with its name. The first is
/// there more than once.
const MISSES: [(&str, &[usize]); 10] = [
    ("fits", &[]),
    ("fits", &[]),
    ("fits", &[]),
    ("misses-n", &[0]),
    ("misses-d1", &[1]),
    ("misses-d2", &[2]),
    ("misses-n-d1", &[0, 1]),
    ("misses-n-d2", &[0, 2]),
    ("misses-d1-d2", &[1, 2]),
    ("misses-n-d1-d2", &[0, 1, 2]),
];

/// A table that fits, or one that misses in the modes of its name and in no
/// other, and that name. Its periods are short, so that nobody searches long.
pub fn fit_or_miss(random: &mut Random) -> (Table, &'static str) {
    let (name, modes) = random.pick(&MISSES);
    let few = random.within(2, 8) as usize;
    let servers = match random.below(8) {
        0 | 1 if modes.is_empty() => 1,
        2 | 3 => MAX_SERVERS,
        _ => few,
    };
    let mut table = fitting(servers, random);
    for &mode in modes {
        add_miss(&mut table, mode, random);
    }
    (table, name)
}

/// A table that fits: each server takes its capacity twice at most within the
/// shortest period of those that have any, and all of that has room in it. The
/// highest has some in every mode. One other row may have none at all, and a
/// period too short for those above it.
fn fitting(servers: usize, random: &mut Random) -> Table {
    let shape = Shape {
        servers,
        tasks: random.within(1, 6) as usize,
        partitions: random.pick(&[1, 1, 2, 3]),
        longest_period: 1,
        longest_limit: random.pick(&[1, 2, 3]),
    };
    let mut table = draw(&shape, random);
    let shortest = 4 * servers as u64;
    for server in &mut table.servers {
        server.period = random.within(shortest, 2 * shortest);
        server.capacity = [0; 3].map(|_| random.pick(&[0, 1, 1, 2]));
    }
    let highest = highest_row(&table.servers);
    table.servers[highest].capacity = [0; 3].map(|_| random.within(1, 2));
    let row = random.below(servers);
    if row != highest && random.chance(40) {
        table.servers[row].period = random.within(1, 3);
        table.servers[row].capacity = [0; 3];
    }
    table
}

/// Gives a row below the highest more capacity in the mode than those above leave
/// of its period, so that it misses. By turns the rows below have none, and do
/// not miss.
fn add_miss(table: &mut Table, mode: usize, random: &mut Random) {
    let highest = highest_row(&table.servers);
    let row =
        (highest + random.within(1, table.servers.len() as u64 - 1) as usize) % table.servers.len();
    let Server { priority, period, .. } = table.servers[row];
    let above = table.servers.iter().filter(|other| other.priority > priority);
    let taken: u64 = above.map(|other| other.capacity[mode]).sum();
    let least = (period + 1).saturating_sub(taken).max(1);
    table.servers[row].capacity[mode] = random.within(least, period);
    if random.chance(50) {
        for other in table.servers.iter_mut().filter(|other| other.priority < priority) {
            other.capacity[mode] = 0;
        }
    }
}

fn highest_row(servers: &[Server]) -> usize {
    (0..servers.len()).max_by_key(|&row| servers[row].priority).unwrap_or(0)
}

/// A tick length, often a plain one or at a bound.
pub fn draw_tick(random: &mut Random) -> u64 {
    match random.below(10) {
        0 | 1 => 1,
        2 => MAX_TICK,
        3..=5 => 1000,
        6 => random.pick(&[2, 3, 7, 10]),
        _ => random.within(1, MAX_TICK),
    }
}

fn draw(shape: &Shape, random: &mut Random) -> Table {
    let tick = draw_tick(random);

    let mut servers = Vec::new();
    let priorities = draw_priorities(shape.servers, random);
    for priority in priorities {
        let period = random.within(1, shape.longest_period);
        servers.push(Server {
            partition: random.within(0, shape.partitions - 1),
            timed: random.chance(55),
            priority,
            period,
            capacity: [0; 3].map(|_| draw_capacity(period, random)),
            phase: None,
        });
    }
    let some_row = random.below(servers.len());
    servers[some_row].timed = true;
    // Partition numbers of their own, not only the first few.
    if random.chance(40) {
        let shift = random.within(0, 15 - (shape.partitions - 1));
        for server in &mut servers {
            server.partition += shift;
        }
    }

    let mut tasks = Vec::new();
    let priorities = draw_priorities(shape.tasks, random);
    for priority in priorities {
        let (home, degraded) = draw_servers(&servers, random);
        tasks.push(Task {
            home,
            degraded,
            priority,
            // Only a HI job takes the mode to D2.
            level: random.pick(&["LO", "LO", "MI", "MI", "HI", "HI", "HI"]),
            time: draw_times(shape.longest_limit, tick, random),
        });
    }
    Table { tick, servers, tasks }
}

pub fn draw_priorities(count: usize, random: &mut Random) -> Vec<u64> {
    let greatest = if random.chance(50) { MAX_PRIORITY } else { count.max(10) as u64 };
    random.different(count, greatest)
}

fn draw_capacity(period: u64, random: &mut Random) -> u64 {
    match random.below(10) {
        0 => 0,
        1 | 2 => period,
        3..=5 => random.within(0, period),
        _ => random.within(1, period.div_ceil(2)),
    }
}

/// A home and a degraded server that fit one another.
fn draw_servers(servers: &[Server], random: &mut Random) -> (usize, usize) {
    let timed: Vec<usize> = (0..servers.len()).filter(|&row| servers[row].timed).collect();
    let degraded = random.pick(&timed);
    let events: Vec<usize> = (0..servers.len())
        .filter(|&row| !servers[row].timed)
        .filter(|&row| servers[row].partition == servers[degraded].partition)
        .collect();
    if events.is_empty() || random.chance(35) {
        (degraded, degraded)
    } else {
        (random.pick(&events), degraded)
    }
}

/// Limits that do not fall, often equal to one another, as times that are
/// whole ticks or round up to them.
fn draw_times(longest: u64, tick: u64, random: &mut Random) -> [u64; 3] {
    let n = random.within(1, longest);
    let d1 = n + random.pick(&[0, 0, 0, 1, 1, 2]);
    let d2 = d1 + random.pick(&[0, 0, 0, 1, 1, 2]);
    let whole = random.chance(50);
    [n, d1, d2].map(|limit| if whole { limit * tick } else { rough(limit, tick, random) })
}

/// A time that rounds up to the limit.
pub fn rough(limit: u64, tick: u64, random: &mut Random) -> u64 {
    (limit - 1) * tick + random.within(1, tick)
}

/// The bounds a good table is put at.
const BOUNDS: [&str; 21] = [
    "tick-1",
    "tick-10000",
    "partition-15",
    "server-priority-1",
    "server-priority-255",
    "task-priority-1",
    "task-priority-255",
    "period-1",
    "period-1000000",
    "period-11-digits",
    "capacity-0",
    "capacity-period",
    "servers-32",
    "tasks-64",
    "servers-32-tasks-64",
    "limit-1",
    "limit-100000",
    "limit-100000-rounded",
    "equal-after-rounding",
    "one-row-each",
    "extremes",
];

/// A good table at one bound, and the bound's name.
pub fn at_bound(random: &mut Random) -> (Table, &'static str) {
    let mut table = small(random);
    let bound = random.pick(&BOUNDS);
    let server = random.below(table.servers.len());
    let task = random.below(table.tasks.len());
    match bound {
        "tick-1" => change_tick(&mut table, 1),
        "tick-10000" => change_tick(&mut table, MAX_TICK),
        "partition-15" => {
            let partition = table.servers[server].partition;
            for other in &mut table.servers {
                if other.partition == partition {
                    other.partition = 15;
                }
            }
        }
        "server-priority-1" => give_server_priority(&mut table, server, 1),
        "server-priority-255" => give_server_priority(&mut table, server, MAX_PRIORITY),
        "task-priority-1" => give_task_priority(&mut table, task, 1),
        "task-priority-255" => give_task_priority(&mut table, task, MAX_PRIORITY),
        "period-1" => {
            table.servers[server].period = 1;
            table.servers[server].capacity = [0; 3].map(|_| random.within(0, 1));
        }
        "period-1000000" => {
            table.servers[server].period = MAX_PERIOD;
            table.servers[server].capacity =
                [0; 3].map(|_| random.pick(&[0, 1, 3, 100, 499_999, 999_999, 1_000_000]));
        }
        "period-11-digits" => {
            change_tick(&mut table, MAX_TICK);
            table.servers[server].period = MAX_PERIOD;
            table.servers[server].capacity[random.below(3)] = MAX_PERIOD;
        }
        "capacity-0" => table.servers[server].capacity[random.below(3)] = 0,
        "capacity-period" => {
            let period = table.servers[server].period;
            table.servers[server].capacity[random.below(3)] = period;
        }
        "servers-32" => table = of_rows(MAX_SERVERS, random.within(1, 10) as usize, random),
        "tasks-64" => table = of_rows(random.within(1, 6) as usize, MAX_TASKS, random),
        "servers-32-tasks-64" => table = of_rows(MAX_SERVERS, MAX_TASKS, random),
        "limit-1" => table.tasks[task].time = [1; 3],
        "limit-100000" => {
            let time = MAX_LIMIT * table.tick;
            let from = random.below(3);
            table.tasks[task].time[from..].fill(time);
        }
        "limit-100000-rounded" => {
            let time = (MAX_LIMIT - 1) * table.tick + 1;
            let from = random.below(3);
            table.tasks[task].time[from..].fill(time);
        }
        "equal-after-rounding" => {
            let tick = random.within(3, MAX_TICK);
            change_tick(&mut table, tick);
            for task in &mut table.tasks {
                let limit = random.within(1, 4);
                let base = (limit - 1) * tick;
                let mut time = [0; 3].map(|_| base + random.within(1, tick));
                time.sort_by(|left, right| right.cmp(left));
                task.time = time;
            }
        }
        "one-row-each" => {
            table = draw(
                &Shape { servers: 1, tasks: 1, partitions: 1, longest_period: 6, longest_limit: 3 },
                random,
            );
        }
        _ => to_extremes(&mut table, random),
    }
    (table, bound)
}

fn of_rows(servers: usize, tasks: usize, random: &mut Random) -> Table {
    let shape = Shape {
        servers,
        tasks,
        partitions: random.within(1, 16),
        longest_period: random.pick(&[12, 60, 300]),
        longest_limit: random.pick(&[1, 3, 6]),
    };
    draw(&shape, random)
}

/// Another tick length; the times of the tasks keep their limits.
fn change_tick(table: &mut Table, tick: u64) {
    for task in &mut table.tasks {
        task.time = task.time.map(|time| time.div_ceil(table.tick) * tick);
    }
    table.tick = tick;
}

/// Gives a row a priority; a row that had it takes the row's own.
fn give_server_priority(table: &mut Table, row: usize, priority: u64) {
    let own = table.servers[row].priority;
    for server in &mut table.servers {
        if server.priority == priority {
            server.priority = own;
        }
    }
    table.servers[row].priority = priority;
}

fn give_task_priority(table: &mut Table, row: usize, priority: u64) {
    let own = table.tasks[row].priority;
    for task in &mut table.tasks {
        if task.priority == priority {
            task.priority = own;
        }
    }
    table.tasks[row].priority = priority;
}

/// Every number at one of its bounds, or beside it.
fn to_extremes(table: &mut Table, random: &mut Random) {
    let tick = random.pick(&[1, 2, 9_999, 10_000]);
    change_tick(table, tick);
    for server in &mut table.servers {
        server.period = random.pick(&[1, 2, 999_999, 1_000_000]);
        server.capacity = [0; 3].map(|_| {
            let period = server.period;
            random.pick(&[0, 1, period - 1, period])
        });
    }
    for task in &mut table.tasks {
        let mut limits = [0; 3].map(|_| random.pick(&[1, 1, 2, 99_999, 100_000]));
        limits.sort();
        task.time = limits.map(|limit| {
            let lowest = (limit - 1) * tick + 1;
            random.pick(&[lowest, limit * tick])
        });
    }
}

#[cfg(test)]
mod tests {
    use super::{fit_or_miss, Server, MAX_SERVERS};
    use crate::random::Random;

    /// Whether a row misses in a mode, by trying every R.
    fn misses(servers: &[Server], row: usize, mode: usize) -> bool {
        let Server { priority, period, capacity, .. } = servers[row];
        let asked = |r: u64| {
            let above = servers.iter().filter(|other| other.priority > priority);
            let from_above = above.map(|other| {
                let late = if other.timed { 0 } else { other.period - other.capacity[mode] };
                (r + late).div_ceil(other.period) * other.capacity[mode]
            });
            capacity[mode] + from_above.sum::<u64>()
        };
        capacity[mode] > 0 && (1..=period).all(|r| asked(r) > r)
    }

    #[test]
    fn tables_miss_in_the_modes_of_their_names() {
        let mut sizes = Vec::new();
        for seed in 0..2000 {
            let (table, name) = fit_or_miss(&mut Random::new(seed));
            let rows = 0..table.servers.len();
            let mut found = String::new();
            for (mode, word) in ["-n", "-d1", "-d2"].iter().enumerate() {
                if rows.clone().any(|row| misses(&table.servers, row, mode)) {
                    found += word;
                }
            }
            assert_eq!(
                name,
                if found.is_empty() { "fits".into() } else { "misses".to_string() + &found }
            );
            sizes.push(rows.len());
        }
        assert!([1, 2, 8, MAX_SERVERS].iter().all(|size| sizes.contains(size)));
    }
}
