//! A table as a run holds it: times in ticks, rows in vectors.

pub const MAX_TICK_LENGTH: u32 = 10_000;
pub const MAX_SERVERS: usize = 32;
pub const MAX_TASKS: usize = 64;
pub const MAX_PARTITION: u32 = 15;
pub const MAX_PRIORITY: u32 = 255;
pub const MAX_PERIOD: u32 = 1_000_000;
pub const MAX_LIMIT: u32 = 100_000;

/// The three modes; a mode indexes the capacities and limits of a row.
#[derive(Clone, Copy, Debug, PartialEq, Eq)]
pub enum Mode {
    N = 0,
    D1 = 1,
    D2 = 2,
}

impl Mode {
    pub const ALL: [Mode; 3] = [Mode::N, Mode::D1, Mode::D2];

    pub fn index(self) -> usize {
        self as usize
    }

    /// The level the mode counts as where a job's level is compared with it.
    pub fn level(self) -> Level {
        match self {
            Mode::N => Level::Lo,
            Mode::D1 => Level::Mi,
            Mode::D2 => Level::Hi,
        }
    }

    /// The next mode; D2 is the last.
    pub fn raised(self) -> Mode {
        match self {
            Mode::N => Mode::D1,
            Mode::D1 | Mode::D2 => Mode::D2,
        }
    }

    pub fn word(self) -> &'static str {
        match self {
            Mode::N => "N",
            Mode::D1 => "D1",
            Mode::D2 => "D2",
        }
    }
}

#[derive(Clone, Copy, Debug, PartialEq, Eq)]
pub enum Kind {
    Event,
    Timed,
}

impl Kind {
    pub fn word(self) -> &'static str {
        match self {
            Kind::Event => "event",
            Kind::Timed => "timed",
        }
    }

    pub fn from_word(word: &[u8]) -> Option<Kind> {
        match word {
            b"event" => Some(Kind::Event),
            b"timed" => Some(Kind::Timed),
            _ => None,
        }
    }
}

/// The three levels, in rising order.
#[derive(Clone, Copy, Debug, PartialEq, Eq, PartialOrd, Ord)]
pub enum Level {
    Lo,
    Mi,
    Hi,
}

impl Level {
    pub fn word(self) -> &'static str {
        match self {
            Level::Lo => "LO",
            Level::Mi => "MI",
            Level::Hi => "HI",
        }
    }

    pub fn from_word(word: &[u8]) -> Option<Level> {
        match word {
            b"LO" => Some(Level::Lo),
            b"MI" => Some(Level::Mi),
            b"HI" => Some(Level::Hi),
            _ => None,
        }
    }
}

/// A server row. Period, capacities and phase are in ticks.
#[derive(Clone, Debug, PartialEq, Eq)]
pub struct Server {
    pub partition: u32,
    pub kind: Kind,
    pub priority: u32,
    pub period: u32,
    pub capacity: [u32; 3],
    /// The number of the tick at which the server starts.
    pub phase: u32,
}

impl Server {
    /// Whether the server has started at the tick of the number, that is once so
    /// many ticks were taken.
    pub fn has_started(&self, tick: u32) -> bool {
        tick >= self.phase
    }

    pub fn capacity_in(&self, mode: Mode) -> u32 {
        self.capacity[mode.index()]
    }

    pub fn largest_capacity(&self) -> u32 {
        self.capacity[0].max(self.capacity[1]).max(self.capacity[2])
    }
}

/// A task row. Limits are in ticks.
#[derive(Clone, Debug, PartialEq, Eq)]
pub struct Task {
    pub home: u32,
    pub degraded: u32,
    pub priority: u32,
    pub level: Level,
    pub limit: [u32; 3],
}

impl Task {
    pub fn limit_in(&self, mode: Mode) -> u32 {
        self.limit[mode.index()]
    }

    /// The row of the server the task belongs to: its home in N, else its
    /// degraded server.
    pub fn server_in(&self, mode: Mode) -> usize {
        if mode == Mode::N {
            self.home as usize
        } else {
            self.degraded as usize
        }
    }
}

/// A table. The tick length is in microseconds, all else in ticks.
#[derive(Clone, Debug, PartialEq, Eq)]
pub struct Table {
    pub tick: u32,
    pub servers: Vec<Server>,
    pub tasks: Vec<Task>,
}

impl Table {
    /// Whether a table handed in by its fields keeps the rules of the page.
    pub fn keeps_the_rules(&self) -> bool {
        (1..=MAX_TICK_LENGTH).contains(&self.tick)
            && (1..=MAX_SERVERS).contains(&self.servers.len())
            && (1..=MAX_TASKS).contains(&self.tasks.len())
            && self.servers.iter().all(server_keeps_the_rules)
            && self.tasks.iter().all(|task| self.task_keeps_the_rules(task))
            && all_differ(self.servers.iter().map(|server| server.priority))
            && all_differ(self.tasks.iter().map(|task| task.priority))
    }

    fn task_keeps_the_rules(&self, task: &Task) -> bool {
        let [n, d1, d2] = task.limit;
        (1..=MAX_PRIORITY).contains(&task.priority)
            && (1..=MAX_LIMIT).contains(&n)
            && (1..=MAX_LIMIT).contains(&d1)
            && (1..=MAX_LIMIT).contains(&d2)
            && n <= d1
            && d1 <= d2
            && misfit(&self.servers, u64::from(task.home), u64::from(task.degraded)).is_none()
    }
}

fn server_keeps_the_rules(server: &Server) -> bool {
    server.partition <= MAX_PARTITION
        && (1..=MAX_PRIORITY).contains(&server.priority)
        && (1..=MAX_PERIOD).contains(&server.period)
        && server.largest_capacity() <= server.period
        && server.phase < server.period
}

/// What can be wrong with the home and the degraded server of a task, in the
/// order in which it is told.
#[derive(Clone, Copy, Debug, PartialEq, Eq)]
pub enum Misfit {
    HomeAbsent,
    DegradedAbsent,
    /// The degraded server is of another partition than the home.
    OtherPartition,
    /// The degraded server is not timed.
    NotTimed,
    /// The home is timed and the degraded server is another.
    NotTheHome,
}

/// The first thing wrong with the server rows of a task, if anything is.
pub fn misfit(servers: &[Server], home: u64, degraded: u64) -> Option<Misfit> {
    let count = servers.len() as u64;
    if home >= count {
        return Some(Misfit::HomeAbsent);
    }
    if degraded >= count {
        return Some(Misfit::DegradedAbsent);
    }
    let home_server = &servers[home as usize];
    let degraded_server = &servers[degraded as usize];
    if degraded_server.partition != home_server.partition {
        return Some(Misfit::OtherPartition);
    }
    if degraded_server.kind != Kind::Timed {
        return Some(Misfit::NotTimed);
    }
    if home_server.kind == Kind::Timed && degraded != home {
        return Some(Misfit::NotTheHome);
    }
    None
}

pub(crate) fn all_differ(priorities: impl Iterator<Item = u32>) -> bool {
    let mut seen = Vec::new();
    for priority in priorities {
        if seen.contains(&priority) {
            return false;
        }
        seen.push(priority);
    }
    true
}
