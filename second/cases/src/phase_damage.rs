//! Tables with a fault at the phase of a server, alone or beside another fault.

use crate::damage::{Draft, Fault, Place};
use crate::phase;
use crate::phase_seen::KINDS;
use crate::random::Random;
use crate::table::{self, text_of};

/// The field of the phase.
const PHASE: usize = 8;

/// A table text with a fault at field 8 of a server line, or at the count of
/// fields beside a phase, and the name of the damage.
pub fn damaged(random: &mut Random) -> (Vec<u8>, String) {
    match random.below(36) {
        0..=12 => wanted_fault(random),
        13..=24 => two_on_one_line(random),
        25 => fields_more(random),
        26 => task_with_phase(random),
        27 | 28 => row_too_many(random),
        29 => misplaced(random),
        30 => unclosed(random),
        31 => two_lines(random),
        32 => equal_priorities(random),
        _ => one_fault(any_number(random), random),
    }
}

/// A rich table, its periods 2 ticks at least, with phases, and a server of it that
/// has one.
fn draft(random: &mut Random) -> (Draft, Place) {
    let mut table = table::rich(random);
    let row = random.below(table.servers.len());
    for (other, server) in table.servers.iter_mut().enumerate() {
        server.period = server.period.max(random.within(2, 4));
        if other == row || random.chance(40) {
            server.phase = Some(phase::draw(server.period, 10, random));
        }
    }
    (Draft::new(table), Place::Server(row))
}

fn any_number(random: &mut Random) -> u8 {
    random.pick(&[1, 1, 2, 2, 3])
}

fn at_phase(number: u8) -> Fault {
    Fault { number, field: PHASE }
}

/// A fault at the phase alone.
fn one_fault(number: u8, random: &mut Random) -> (Vec<u8>, String) {
    let (mut draft, place) = draft(random);
    let name = draft.put(at_phase(number), place, random);
    (text_of(&draft.lines), name)
}

/// One of those that are wanted, each as often as the others.
fn wanted_fault(random: &mut Random) -> (Vec<u8>, String) {
    let (number, kind) = random.pick(&KINDS);
    loop {
        let (text, name) = one_fault(number, random);
        if name == format!("{number}-server-8-{kind}") {
            return (text, name);
        }
    }
}

/// A field or more after the phase.
fn fields_more(random: &mut Random) -> (Vec<u8>, String) {
    let (mut draft, place) = draft(random);
    let line = draft.line(place);
    let how = match random.below(4) {
        0 => {
            line.push(Vec::new());
            "tab-after-phase"
        }
        1 => {
            line.push(b"x".to_vec());
            "word-after-phase"
        }
        2 => {
            let phase = line[PHASE].clone();
            line.push(phase);
            "phase-twice"
        }
        _ => {
            let more = random.within(2, 6) as usize;
            line.extend(vec![b"0".to_vec(); more]);
            "fields-after-phase"
        }
    };
    (text_of(&draft.lines), format!("1-server-0-{how}"))
}

/// A task line with an eighth field.
fn task_with_phase(random: &mut Random) -> (Vec<u8>, String) {
    let (mut draft, _) = draft(random);
    let place = Place::Task(random.below(draft.table.tasks.len()));
    draft.line(place).push(b"0".to_vec());
    (text_of(&draft.lines), "1-task-0-phase".to_string())
}

/// A fault of the line itself or of a field before the phase, and one at the phase.
fn two_on_one_line(random: &mut Random) -> (Vec<u8>, String) {
    let (mut draft, place) = draft(random);
    let left = match random.pick(&[0, 1, 2, 3]) {
        0 => Fault { number: 1, field: 0 },
        1 => Fault { number: 1, field: random.within(1, 7) as usize },
        number => Fault { number, field: random.pick(place.fields_for(number)) },
    };
    let right = at_phase(random.pick(&[1, 2, 3]));
    let [left, right] = draft.put_both([left, right], place, random);
    (text_of(&draft.lines), format!("pair-one-line-{left}-and-{right}"))
}

/// A 33rd server with a fault at its phase.
fn row_too_many(random: &mut Random) -> (Vec<u8>, String) {
    let (mut draft, place) = draft(random);
    let Place::Server(row) = place else { unreachable!("a server has the phase") };
    let mut table = draft.table.clone();
    while table.servers.len() <= table::MAX_SERVERS {
        let mut server = table.servers[row].clone();
        server.priority = 256 - table.servers.len() as u64;
        table.servers.push(server);
    }
    draft = Draft::new(table);
    let number = any_number(random);
    let name = draft.put(at_phase(number), Place::Server(table::MAX_SERVERS), random);
    (text_of(&draft.lines), format!("2-33rd-server-and-{name}"))
}

/// A server line before the tick line or after a task, with a fault at its phase.
fn misplaced(random: &mut Random) -> (Vec<u8>, String) {
    let (mut draft, place) = draft(random);
    let own = draft.line(place).clone();
    let number = any_number(random);
    let name = draft.put(at_phase(number), place, random);
    let line = std::mem::replace(draft.line(place), own);
    let (at, what) = if random.chance(50) {
        (0, "server-before-tick")
    } else {
        (draft.index(Place::Task(0)) + 1, "server-after-task")
    };
    draft.lines.insert(at, line);
    (text_of(&draft.lines), format!("1-misplaced-{what}-and-{name}"))
}

fn unclosed(random: &mut Random) -> (Vec<u8>, String) {
    let (mut draft, place) = draft(random);
    let number = any_number(random);
    let name = draft.put(at_phase(number), place, random);
    let mut text = text_of(&draft.lines[..=draft.index(place)]);
    text.pop();
    (text, format!("1-unclosed-and-{name}"))
}

/// A fault at the phase and one of another line, the upper first.
fn two_lines(random: &mut Random) -> (Vec<u8>, String) {
    let (mut draft, place) = draft(random);
    let other = loop {
        let other = draft.any_place(random);
        if other != place {
            break other;
        }
    };
    let (number, other_number) = (any_number(random), draft.number_for(other, random));
    let name = draft.put(at_phase(number), place, random);
    let other_name = draft.put_any(other_number, other, random);
    let (upper, lower) = if draft.index(place) < draft.index(other) {
        (name, other_name)
    } else {
        (other_name, name)
    };
    (text_of(&draft.lines), format!("pair-two-lines-{upper}-and-{lower}"))
}

/// Equal priorities, and a fault at the phase.
fn equal_priorities(random: &mut Random) -> (Vec<u8>, String) {
    let (mut draft, place) = draft(random);
    let first = draft.equal_priorities(random);
    let number = any_number(random);
    let second = draft.put(at_phase(number), place, random);
    (text_of(&draft.lines), format!("pair-two-lines-{first}-and-{second}"))
}

#[cfg(test)]
mod tests {
    use super::damaged;
    use crate::random::Random;

    #[test]
    fn every_text_has_the_fault_of_its_name() {
        for seed in 0..5000 {
            let (text, name) = damaged(&mut Random::new(seed));
            let text = String::from_utf8_lossy(&text).into_owned();
            let counts = |wanted: &dyn Fn(usize) -> bool| {
                text.lines()
                    .filter(|line| line.starts_with("server\t"))
                    .any(|line| wanted(line.split('\t').count() - 1))
            };
            if name.contains("-server-8-") && !name.contains("-0-") {
                assert!(counts(&|fields| fields == 8), "{name}\n{text}");
            }
            if name.starts_with("1-server-0") {
                assert!(counts(&|fields| fields > 8), "{name}\n{text}");
            }
        }
    }
}
