//! The `states` program: numbers 10 to 13 and states handed in.

use second::states::answer_blocks;

const TABLE: &str = "\
table\t1000\t3\t3
server\t0\t0\t30\t10\t2\t0\t0
server\t0\t1\t20\t20\t5\t7\t7
server\t1\t1\t10\t40\t8\t8\t4
task\t0\t1\t50\t2\t1\t2\t3
task\t1\t1\t40\t1\t3\t4\t4
task\t2\t2\t10\t0\t2\t2\t2
";

const STATE: &str = "\
state\t1\t7\t4\t1\t0
budget\t2\t7
budget\t1\t7
budget\t4\t7
queue\t2\t2
queue\t0\t0
queue\t1\t1
";

fn answer(table: &str, state: &str, operation: &str) -> String {
    answer_blocks(&format!("{table}{state}{operation}\n")).unwrap()
}

/// The first line of the answer to a state with one piece of text exchanged.
fn changed(from: &str, to: &str, operation: &str) -> String {
    let block = format!("{TABLE}{STATE}");
    assert_eq!(block.matches(from).count(), 1, "{from:?} is there once");
    let answer = answer(&block.replace(from, to), "", operation);
    answer.lines().next().unwrap().replace('\t', " ")
}

#[test]
fn a_fresh_run() {
    let fresh = "fresh\nstate\t0\t0\t0\t0\t0\n".to_string()
        + &"budget\t0\t0\n".repeat(3)
        + &"queue\t0\t0\n".repeat(3);
    assert_eq!(answer(TABLE, "", "fresh"), fresh);
    // A fresh run is made of the table; the state is not looked at.
    assert_eq!(answer(TABLE, "state\t2\t0\t0\t1\t77\n", "fresh"), fresh);
}

#[test]
fn a_tick_taken() {
    // D1 rises to D2 for the HI job, the LO job goes, the job runs on.
    let next = "\
tick\t7\t2\t2\t1\t0\t0\t0\t1
state\t2\t8\t4\t1\t0
budget\t2\t8
budget\t2\t8
budget\t4\t8
queue\t2\t3
queue\t0\t0
queue\t0\t0
";
    assert_eq!(answer(TABLE, STATE, "tick\t0"), next);
    assert_eq!(changed("queue\t2\t2", "queue\t2\t1", "tick\t1"), "tick 7 1 2 1 0 1 0 0");
}

#[test]
fn jobs_at_their_limits() {
    let state = |head: &str, queues: [&str; 3]| {
        let [one, two, three] = queues;
        let budgets = "budget\t2\t7\nbudget\t1\t7\nbudget\t4\t7\n";
        format!("state\t{head}\n{budgets}queue\t{one}\nqueue\t{two}\nqueue\t{three}\n")
    };
    let next = |head: &str, queues: [&str; 3]| {
        let charged = "budget\t2\t8\nbudget\t2\t8\nbudget\t4\t8\n";
        let after = state(head, queues);
        let (before, rest) = after.split_once("budget").unwrap();
        format!("{before}{charged}{}", &rest[rest.find("queue").unwrap()..])
    };
    // The LO job is cut in N, and task 1 runs. Mark 1 leaves the same state.
    let lo_in_n = state("0\t7\t4\t1\t2", ["0\t0", "1\t1", "2\t2"]);
    let after = next("0\t8\t4\t1\t1", ["0\t0", "1\t2", "1\t0"]);
    let cut = format!("tick\t7\t0\t2\t1\t1\t2\t2\t0\n{after}");
    let done = format!("tick\t7\t0\t2\t1\t1\t1\t2\t0\n{after}");
    assert_eq!(answer(TABLE, &lo_in_n, "tick\t0"), cut);
    assert_eq!(answer(TABLE, &lo_in_n, "tick\t1"), done);
    // The MI job in N rises to D1 and runs on.
    let mi_in_n = state("0\t7\t4\t1\t1", ["0\t0", "1\t3", "1\t1"]);
    let after = next("1\t8\t4\t1\t1", ["0\t0", "1\t4", "1\t1"]);
    let risen = format!("tick\t7\t1\t2\t1\t1\t0\t0\t0\n{after}");
    assert_eq!(answer(TABLE, &mi_in_n, "tick\t0"), risen);
    // In D1 it is cut, and task 0 runs.
    let mi_in_d1 = state("1\t7\t4\t1\t1", ["1\t0", "1\t4", "1\t0"]);
    let after = next("1\t8\t4\t1\t0", ["1\t1", "0\t0", "1\t0"]);
    let cut = format!("tick\t7\t1\t2\t1\t0\t2\t1\t0\n{after}");
    assert_eq!(answer(TABLE, &mi_in_d1, "tick\t0"), cut);
    // With a limit of 3 in D1 too it rises and is cut in one tick.
    let table = TABLE.replace("\t40\t1\t3\t4\t4", "\t40\t1\t3\t3\t4");
    let mi_in_n = state("0\t7\t4\t1\t1", ["1\t0", "1\t3", "1\t0"]);
    assert_eq!(answer(&table, &mi_in_n, "tick\t0"), cut);
    // The HI job in D2 is cut, and the next one runs.
    let hi_in_d2 = state("2\t7\t4\t1\t0", ["2\t3", "0\t0", "0\t0"]);
    let after = next("2\t8\t4\t1\t0", ["1\t1", "0\t0", "0\t0"]);
    let cut = format!("tick\t7\t2\t2\t1\t0\t2\t0\t0\n{after}");
    assert_eq!(answer(TABLE, &hi_in_d2, "tick\t0"), cut);
}

#[test]
fn a_release_taken() {
    let next =
        STATE.replace("state\t1\t7\t4", "state\t1\t7\t5").replace("queue\t0\t0", "queue\t1\t0");
    assert_eq!(answer(TABLE, STATE, "release\t1"), format!("release\n{next}"));
}

#[test]
fn counts_at_their_bounds() {
    assert_eq!(changed("state\t1\t7", "state\t1\t4000000000", "tick\t0"), "no 10");
    assert_eq!(changed("state\t1\t7", "state\t1\t4000000000", "tick\t1"), "no 10");
    assert_eq!(changed("state\t1\t7", "state\t1\t4000000000", "release\t0"), "release");
    assert_eq!(changed("state\t1\t7\t4", "state\t1\t7\t4000000000", "release\t0"), "no 10");
    assert_eq!(changed("state\t1\t7\t4", "state\t1\t7\t4000000000", "release\t3"), "no 6");
    assert!(changed("state\t1\t7\t4", "state\t1\t7\t4000000000", "tick\t0").starts_with("tick"));
    assert_eq!(changed("state\t1\t7", "state\t1\t4000000001", "tick\t0"), "no 13");
    assert_eq!(changed("state\t1\t7\t4", "state\t1\t7\t4000000001", "tick\t0"), "no 13");
    assert_eq!(changed("state\t1\t7\t4", "state\t1\t7\t2", "tick\t0"), "no 13");
    assert!(changed("state\t1\t7\t4", "state\t1\t7\t3", "tick\t0").starts_with("tick"));
    // 9 before 10, 8 before 10.
    let none_ran = "state\t0\t4000000000\t4000000000\t0\t0\n";
    assert_eq!(answer(TABLE, none_ran, "tick\t1"), "no\t9\n");
    assert_eq!(answer(TABLE, none_ran, "tick\t0"), "no\t10\n");
    let full = format!("{none_ran}queue\t16\t0\n");
    assert_eq!(answer(TABLE, &full, "release\t0"), "no\t8\n");
    assert_eq!(answer(TABLE, &full, "release\t1"), "no\t10\n");
    assert_eq!(answer(TABLE, "state\t2\t0\t4000000000\t0\t0\n", "release\t2"), "no\t7\n");
}

#[test]
fn unsound_states() {
    for (from, to) in [
        ("budget\t2\t7", "budget\t2\t11"), // elapsed beyond the period
        ("budget\t2\t7", "budget\t2\t1"),  // used beyond elapsed
        ("budget\t2\t7", "budget\t3\t7"),  // used beyond the largest capacity
        ("queue\t1\t1", "queue\t17\t1"),   // too many waiting
        ("queue\t1\t1", "queue\t4294967295\t1"),
        ("queue\t0\t0", "queue\t0\t1"), // a run count without a job
        ("queue\t1\t1", "queue\t1\t2"), // at its limit, not the last run
        ("queue\t2\t2", "queue\t2\t3"), // the last run beyond its limit
        ("queue\t2\t2", "queue\t2\t0"), // the last run with run count 0
        ("queue\t2\t2", "queue\t0\t0"), // the last run without a job
        ("\t1\t0\nbudget", "\t1\t3\nbudget"), // no such task
        ("state\t1\t7", "state\t1\t0"), // a last run, but no tick
        ("state\t1\t7", "state\t2\t7"), // LO waits in D2
        ("state\t1\t7", "state\t0\t7"), // beyond the limit in N
        ("table\t1000\t3\t3", "table\t0\t3\t3"),
        ("table\t1000\t3\t3", "table\t10001\t3\t3"),
        ("table\t1000\t3\t3", "table\t1000\t0\t3"),
        ("table\t1000\t3\t3", "table\t1000\t3\t0"),
        ("table\t1000\t3\t3", "table\t1000\t33\t3"),
        ("table\t1000\t3\t3", "table\t1000\t3\t4294967295"),
        ("table\t1000\t3\t3", "table\t1000\t4\t3"), // a row of zeros
        ("server\t0\t0", "server\t16\t0"),
        ("\t30\t10", "\t256\t10"),
        ("\t30\t10", "\t0\t10"),
        ("\t30\t10", "\t20\t10"), // equal priorities
        ("\t10\t40\t8\t8\t4", "\t10\t40\t8\t8\t41"),
        ("\t10\t40\t8\t8\t4", "\t10\t1000001\t8\t8\t4"),
        ("\t10\t40\t8\t8\t4", "\t10\t0\t0\t0\t0"),
        ("task\t0\t1", "task\t3\t1"),
        ("task\t0\t1", "task\t0\t0"),
        ("task\t0\t1", "task\t0\t2"),
        ("task\t1\t1\t40", "task\t1\t1\t50"), // equal priorities
        ("task\t1\t1\t40\t1\t3\t4\t4", "task\t1\t1\t40\t1\t5\t4\t4"),
        ("task\t1\t1\t40\t1\t3\t4\t4", "task\t1\t1\t40\t1\t0\t4\t4"),
        ("task\t1\t1\t40\t1\t3\t4\t4", "task\t1\t1\t40\t1\t3\t4\t100001"),
    ] {
        assert_eq!(changed(from, to, "tick\t0"), "no 13", "{to}");
        assert_eq!(changed(from, to, "tick\t1"), "no 13", "{to}");
        assert_eq!(changed(from, to, "release\t9"), "no 13", "{to}");
    }
    for (from, to) in [
        ("budget\t2\t7", "budget\t2\t10"),
        ("budget\t2\t7", "budget\t2\t2"),
        ("queue\t1\t1", "queue\t1\t0"),
        ("queue\t2\t2", "queue\t2\t1"),
    ] {
        assert!(changed(from, to, "tick\t0").starts_with("tick"), "{to}");
    }
    // The front job at its limit must be that of the last-run task.
    assert_eq!(changed("\t1\t0\nbudget", "\t0\t0\nbudget", "tick\t0"), "no 13");
}

#[test]
fn verdicts_and_writing() {
    assert_eq!(answer(TABLE, "", "verdict\t2\t0"), "verdict\t1\t19\n");
    assert_eq!(answer(TABLE, "", "verdict\t2\t1"), "verdict\t1\t15\n");
    assert_eq!(answer(TABLE, "", "verdict\t0\t2"), "verdict\t1\t0\n");
    assert_eq!(answer(TABLE, "", "verdict\t3\t0"), "no\t11\n");
    assert_eq!(answer(TABLE, "", "verdict\t4294967296\t0"), "no\t11\n");
    let unsound = TABLE.replace("table\t1000", "table\t0");
    assert_eq!(answer(&unsound, "", "verdict\t3\t0"), "no\t13\n");
    assert_eq!(answer(&unsound, "", "write\t0"), "no\t13\n");
    assert_eq!(answer(&unsound, "", "fresh"), "no\t13\n");
    let misses = TABLE.replace("\t40\t8\t8\t4", "\t8\t8\t8\t4");
    assert_eq!(answer(&misses, "", "verdict\t2\t0"), "verdict\t0\t0\n");

    let written = answer(TABLE, "", "write\t99999");
    let (head, text) = written.split_once('\n').unwrap();
    assert_eq!(head, format!("write\t{}", text.len()));
    assert!(text.starts_with("tick\t1000\nserver\t0\tevent\t30\t10000\t2000\t0\t0\n"));
    assert_eq!(answer(TABLE, "", &format!("write\t{}", text.len())), written);
    assert_eq!(answer(TABLE, "", &format!("write\t{}", text.len() - 1)), "no\t12\n");
}

#[test]
fn whether_a_table_fits() {
    let misses_in = |from: &str, to: &str| TABLE.replace(from, to);
    for operation in ["fits", "fits_state"] {
        assert_eq!(answer(TABLE, "", operation), "fits\t1\t0\t0\n");
        let in_n = misses_in("\t40\t8\t8\t4", "\t40\t21\t8\t4");
        assert_eq!(answer(&in_n, "", operation), "fits\t0\t0\t2\n");
        let in_d1 = misses_in("\t40\t8\t8\t4", "\t40\t8\t27\t27");
        assert_eq!(answer(&in_d1, "", operation), "fits\t0\t1\t2\n");
        let in_d2 = misses_in("\t10\t2\t0\t0", "\t10\t2\t0\t10");
        assert_eq!(answer(&in_d2, "", operation), "fits\t0\t2\t1\n");
        // Whatever the state is, if it is sound.
        for mode in 0..3 {
            let state = format!("state\t{mode}\t7\t4\t0\t0\nbudget\t2\t7\nqueue\t1\t0\n");
            assert_eq!(answer(TABLE, &state, operation), "fits\t1\t0\t0\n");
            assert_eq!(answer(&in_d1, &state, operation), "fits\t0\t1\t2\n");
        }
        assert_eq!(changed("budget\t1\t7", "budget\t5\t20", operation), "fits 1 0 0");
    }
}

#[test]
fn refused_before_it_is_asked_whether_a_table_fits() {
    for (from, to) in [
        ("table\t1000\t3\t3", "table\t0\t3\t3"),
        ("table\t1000\t3\t3", "table\t1000\t33\t3"),
        ("\t30\t10", "\t20\t10"),
        ("\t10\t40\t8\t8\t4", "\t10\t40\t8\t8\t41"),
        ("task\t0\t1", "task\t0\t2"),
        ("task\t1\t1\t40\t1\t3\t4\t4", "task\t1\t1\t40\t1\t5\t4\t4"),
    ] {
        assert_eq!(changed(from, to, "fits"), "no 13", "{to}");
        assert_eq!(changed(from, to, "fits_state"), "no 13", "{to}");
    }
    // The state is looked at by one of the two only.
    for (from, to) in [
        ("budget\t2\t7", "budget\t2\t11"),
        ("budget\t2\t7", "budget\t3\t7"),
        ("queue\t1\t1", "queue\t17\t1"),
        ("queue\t0\t0", "queue\t0\t1"),
        ("queue\t2\t2", "queue\t2\t3"),
        ("\t1\t0\nbudget", "\t1\t3\nbudget"),
        ("state\t1\t7", "state\t1\t0"),
        ("state\t1\t7", "state\t2\t7"),
        ("state\t1\t7", "state\t1\t4000000001"),
        ("state\t1\t7\t4", "state\t1\t7\t2"),
    ] {
        assert_eq!(changed(from, to, "fits"), "fits 1 0 0", "{to}");
        assert_eq!(changed(from, to, "fits_state"), "no 13", "{to}");
    }
    // A table that misses is refused no less.
    let misses = TABLE.replace("\t40\t8\t8\t4", "\t40\t21\t8\t4");
    assert_eq!(answer(&misses, "state\t0\t0\t0\t1\t0\n", "fits_state"), "no\t13\n");
    assert_eq!(answer(&misses.replace("table\t1000", "table\t0"), "", "fits"), "no\t13\n");
    // At the bounds of the counts the question stands.
    let spent = "state\t0\t4000000000\t4000000000\t0\t0\n";
    assert_eq!(answer(TABLE, spent, "fits_state"), "fits\t1\t0\t0\n");
}

#[test]
fn rows_beyond_the_count_are_not_in_use() {
    let table = TABLE.replace("table\t1000\t3\t3", "table\t1000\t3\t2");
    let fresh = answer(&table, "", "fresh");
    assert_eq!(fresh.matches("queue").count(), 2);
    let out_of_use = "queue\t0\t0\nqueue\t0\t0\nqueue\t99\t99\n";
    assert_eq!(answer(&table, out_of_use, "release\t2"), "no\t6\n");
    // A server that misses, and one that breaks the rules, but not in use.
    let table = TABLE.replace("task\t0\t1", "server\t0\t1\t5\t40\t40\t40\t41\ntask\t0\t1");
    assert_eq!(answer(&table, "", "fits"), "fits\t1\t0\t0\n");
    assert_eq!(answer(&table, "", "fits_state"), "fits\t1\t0\t0\n");
}

#[test]
fn several_blocks_and_bad_texts() {
    let block = format!("# a remark\n{TABLE}fresh\n\n{TABLE}{STATE}release\t7\n");
    let answers = answer_blocks(&block).unwrap();
    assert!(answers.starts_with("fresh\n") && answers.ends_with("no\t6\n"));
    assert_eq!(answer_blocks(""), Ok(String::new()));
    for bad in [
        "fresh\n",
        TABLE,
        "table\t1\t1\n",
        "table\t1\t1\tx\nfresh\n",
        "table\t1\t1\t4294967296\nfresh\n",
        "table\t1\t1\t1\nserver\t0\t2\t1\t1\t1\t1\t1\nfresh\n",
        "table\t1\t1\t1\ntick\t2\n",
        "table\t1\t1\t1\nverdict\t0\t3\n",
        "table\t1\t1\t1\nfits\t0\n",
        "table\t1\t1\t1\nfits_state\t0\n",
        "table\t1\t1\t1\nbudget\t1\nfresh\n",
        "table\t1\t1\t1\ntable\t1\t1\t1\nfresh\n",
    ] {
        assert!(answer_blocks(bad).is_err(), "{bad:?}");
    }
}
