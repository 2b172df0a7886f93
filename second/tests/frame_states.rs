//! The frame blocks of the `states` program.

use second::states::answer_blocks;

/// A task of each partition, and the job of task 0 at its limit in slot 600.
const BLOCK: &str = "\
frame\t1000\t3
slotted\t0\t5\t2
slotted\t1\t7\t1
slotted\t2\t9\t3
box\t600\t4\t1\t0
queue\t2\t2
queue\t0\t0
queue\t1\t1
";

fn answer(block: &str, operation: &str) -> String {
    answer_blocks(&format!("{block}{operation}\n")).unwrap()
}

/// The first line of the answer to the block with one piece of text exchanged.
fn changed(from: &str, to: &str, operation: &str) -> String {
    assert_eq!(BLOCK.matches(from).count(), 1, "{from:?} is there once");
    let answer = answer(&BLOCK.replace(from, to), operation);
    answer.lines().next().unwrap().replace('\t', " ")
}

fn breaks(block: &str) {
    assert!(answer_blocks(block).is_err(), "{block:?}");
}

#[test]
fn operations_taken() {
    let fresh = "fresh\nbox\t0\t0\t0\t0\nqueue\t0\t0\nqueue\t0\t0\nqueue\t0\t0\n";
    assert_eq!(answer(BLOCK, "fresh"), fresh);
    // The state is not looked at.
    assert_eq!(answer(&BLOCK.replace("box\t600", "box\t0"), "fresh"), fresh);
    let released = "release\nbox\t600\t5\t1\t0\nqueue\t2\t2\nqueue\t1\t0\nqueue\t1\t1\n";
    assert_eq!(answer(BLOCK, "release\t1"), released);
    let cut = "tick\t600\t0\t2\t0\t0\t2\t0\t0\nbox\t601\t4\t1\t0\nqueue\t1\t1\nqueue\t0\t0\n\
        queue\t1\t1\n";
    assert_eq!(answer(BLOCK, "tick\t0"), cut);
    let done = cut.replace("\t0\t2\t0\t0\nbox", "\t0\t1\t0\t0\nbox");
    assert_eq!(answer(BLOCK, "tick\t1"), done);
    // Rows and the box that are not given are 0. Slot 1 is empty.
    let empty = "tick\t0\t0\t1\t0\t0\t0\t0\t0\nbox\t1\t0\t0\t0\nqueue\t0\t0\n";
    assert_eq!(answer("frame\t1\t1\nslotted\t1\t1\t1\n", "tick\t0"), empty);
    assert_eq!(changed("box\t600\t4\t1\t0", "box\t600\t4\t0\t7", "tick\t0"), "no 13");
}

#[test]
fn slots_of_great_ticks() {
    // The job of task 0 leaves by its mark; the panel has one waiting.
    for (ticks, answer) in [
        ("599", "tick 599 0 2 2 2 1 0 0"),
        ("611", "tick 611 0 2 0 0 1 0 0"),
        ("613", "tick 613 0 1 1 0 1 0 0"),
        ("1199", "tick 1199 0 2 2 2 1 0 0"),
        ("1200", "tick 1200 0 2 0 0 1 0 0"),
        ("1801", "tick 1801 0 2 0 0 1 0 0"),
        ("3999999999", "tick 3999999999 0 2 0 0 1 0 0"),
        ("4000000000", "no 10"),
        ("4000000001", "no 13"),
    ] {
        assert_eq!(changed("box\t600", &format!("box\t{ticks}"), "tick\t1"), answer);
    }
}

#[test]
fn refusals_in_their_order() {
    assert_eq!(changed("slotted\t0", "slotted\t0", "release\t3"), "no 6");
    assert_eq!(changed("\t4\t1\t0", "\t4000000000\t1\t0", "release\t3"), "no 6");
    assert_eq!(changed("\t4\t1\t0", "\t4000000000\t1\t0", "release\t1"), "no 10");
    assert_eq!(
        changed("\t4\t1\t0\nqueue\t2", "\t4000000000\t1\t0\nqueue\t16", "release\t0"),
        "no 8"
    );
    assert_eq!(changed("\t4\t1\t0", "\t4000000000\t1\t0", "tick\t1"), "tick 600 0 2 0 0 1 0 0");
    let no_last = "box\t4000000000\t4\t0\t0\nqueue\t2\t1";
    assert_eq!(changed("box\t600\t4\t1\t0\nqueue\t2\t2", no_last, "tick\t1"), "no 9");
    assert_eq!(changed("box\t600\t4\t1\t0\nqueue\t2\t2", no_last, "tick\t0"), "no 10");
    assert_eq!(changed("box\t600\t4\t1\t0\nqueue\t2\t2", no_last, "release\t0"), "release");
}

#[test]
fn unsound_tables_and_states() {
    let tables = [
        ("frame\t1000\t3", "frame\t0\t3"),
        ("frame\t1000\t3", "frame\t10001\t3"),
        ("frame\t1000\t3", "frame\t1000\t0"),
        ("frame\t1000\t3", "frame\t1000\t4"),
        ("frame\t1000\t3", "frame\t1000\t65"),
        ("frame\t1000\t3", "frame\t1000\t4294967295"),
        ("slotted\t1\t7\t1", "slotted\t3\t7\t1"),
        ("slotted\t1\t7\t1", "slotted\t1\t0\t1"),
        ("slotted\t1\t7\t1", "slotted\t1\t256\t1"),
        ("slotted\t1\t7\t1", "slotted\t1\t5\t1"),
        ("slotted\t1\t7\t1", "slotted\t1\t7\t0"),
        ("slotted\t1\t7\t1", "slotted\t1\t7\t100001"),
    ];
    for (from, to) in tables {
        for operation in ["fresh", "release\t0", "tick\t0"] {
            assert_eq!(changed(from, to, operation), "no 13", "{to}");
        }
    }
    let states = [
        ("queue\t2\t2", "queue\t17\t2"),
        ("queue\t2\t2", "queue\t2\t3"),
        ("queue\t2\t2", "queue\t2\t0"),
        ("queue\t2\t2", "queue\t0\t0"),
        ("queue\t0\t0", "queue\t0\t1"),
        ("queue\t1\t1", "queue\t1\t3"),
        ("box\t600\t4\t1\t0", "box\t600\t4\t1\t1"),
        ("box\t600\t4\t1\t0", "box\t600\t4\t1\t3"),
        ("box\t600\t4\t1\t0", "box\t600\t4\t0\t0"),
        ("box\t600", "box\t0"),
        ("box\t600\t4", "box\t600\t2"),
        ("box\t600\t4", "box\t600\t4000000001"),
    ];
    for (from, to) in states {
        assert_eq!(changed(from, to, "fresh"), "fresh", "{to}");
        for operation in ["release\t0", "tick\t0", "tick\t1", "release\t9"] {
            assert_eq!(changed(from, to, operation), "no 13", "{to}");
        }
    }
    assert_eq!(changed("box\t600\t4", "box\t600\t3", "release\t1"), "release");
    // A row that is given and not in use.
    assert_eq!(changed("frame\t1000\t3", "frame\t1000\t2", "tick\t0"), "tick 600 0 2 0 0 2 0 0");
}

#[test]
fn lines_that_break_the_format() {
    let good = format!("{BLOCK}tick\t0\n");
    assert!(answer_blocks(&format!("{good}\n# more\n{good}")).is_ok());
    breaks(BLOCK);
    for operation in ["verdict\t0\t0", "write\t100", "fits", "fits_state", "tick\t2", "tick", "box"]
    {
        breaks(&format!("{BLOCK}{operation}\n"));
    }
    for line in [
        "server\t0\t1\t1\t1\t1\t1\t1",
        "task\t0\t0\t1\t0\t1\t1\t1",
        "state\t0\t0\t0\t0\t0",
        "budget\t0\t0",
    ] {
        breaks(&format!("{BLOCK}{line}\ntick\t0\n"));
    }
    for line in ["table\t1\t1\t1", "frame\t1\t1", "slotted\t0\t1", "slotted\t0\t1\t4294967296"] {
        breaks(&format!("{BLOCK}{line}\ntick\t0\n"));
    }
    breaks(&BLOCK.replace("box\t600\t4\t1\t0", "box\t600\t4\t2\t0"));
    breaks(&format!("frame\t1\t1\t1\n{}", "fresh\n"));
    breaks(&format!("frame\t1\t64\n{}fresh\n", "slotted\t0\t1\t1\n".repeat(65)));
    breaks("slotted\t0\t1\t1\nfresh\n");
    let table = "table\t1\t1\t1\nserver\t0\t1\t1\t1\t1\t1\t1\ntask\t0\t0\t1\t0\t1\t1\t1\n";
    assert!(answer_blocks(&format!("{table}fresh\n{good}{table}fits\n")).is_ok());
    breaks(&format!("{table}slotted\t0\t1\t1\nfresh\n"));
    breaks(&format!("{table}box\t0\t0\t0\t0\nfresh\n"));
}
