use super::*;

/// The group of some members.
fn group(members: &[u8]) -> u64 {
    members.iter().map(|&member| 1 << (48 - member)).sum()
}

fn groups(listed: &[&[u8]]) -> Vec<u64> {
    listed.iter().map(|members| group(members)).collect()
}

/// Without this the times would be those of an engine that gives other answers.
#[track_caller]
fn solves_to(text: &str, verdict: Verdict, passing: &[&[u8]], stopping: &[&[u8]]) {
    let mut engine = Engine::<OpenTable>::new(SIZES);
    let solved = engine.solve(text.as_bytes()).unwrap();
    assert_eq!(solved.verdict(), verdict);
    assert_eq!(engine.passing_groups(&solved), groups(passing));
    assert_eq!(engine.stopping_groups(&solved), groups(stopping));
}

#[test]
fn one_member() {
    solves_to("1", Verdict::Nondominated, &[&[1]], &[&[1]]);
    solves_to("any(1 all(1 2))", Verdict::Nondominated, &[&[1]], &[&[1]]);
}

#[test]
fn majority_of_three() {
    let pairs: [&[u8]; 3] = [&[1, 2], &[1, 3], &[2, 3]];
    solves_to("least 2 (1 2 3)", Verdict::Nondominated, &pairs, &pairs);
}

#[test]
fn some_of_two_clash_and_all_of_two_are_dominated() {
    solves_to("any(1 2)", Verdict::Clash, &[&[1], &[2]], &[&[1, 2]]);
    solves_to("all(1 2)", Verdict::Dominated, &[&[1, 2]], &[&[1], &[2]]);
}

#[test]
fn grid_of_two_rows() {
    let triples: [&[u8]; 4] = [&[1, 2, 3], &[1, 2, 4], &[1, 3, 4], &[2, 3, 4]];
    let pairs: [&[u8]; 6] = [&[1, 2], &[1, 3], &[1, 4], &[2, 3], &[2, 4], &[3, 4]];
    solves_to("grid 2 (1 2 3 4)", Verdict::Dominated, &triples, &pairs);
}

/// Without this the comparison of the two kinds of tables would be one of different work.
#[test]
fn both_tables_do_the_same_work() {
    for text in ["least 8 (1 2 3 4 5 6 7 8 9 10 11 12 13 14 15)", "grid 3 (1 4 7 2 5 8 3 6 9)"] {
        let open = Engine::<OpenTable>::new(SIZES).work(text.as_bytes());
        let std = Engine::<StdTable>::new(SIZES).work(text.as_bytes());
        assert_eq!(open, std);
    }
}

/// Without this a row of the table would depend on the row before, or on the run before.
#[test]
fn an_engine_forgets_the_last_rule() {
    let mut engine = Engine::<OpenTable>::new(SIZES);
    let first = engine.work(b"grid 3 (1 2 3 4 5 6 7 8 9)");
    engine.work(b"least 3 (1 2 3 4 5)").unwrap();
    assert_eq!(engine.work(b"grid 3 (1 2 3 4 5 6 7 8 9)"), first);
}

/// Without this a memo that has forgotten could tell the answer to another question.
#[test]
fn a_small_memo_costs_questions_and_changes_no_answer() {
    let text = b"grid 3 (1 4 7 2 5 8 3 6 9)";
    let roomy = Engine::<OpenTable>::new(SIZES).work(text).unwrap();
    let small = Engine::<OpenTable>::new(Sizes { notes: 64, ..SIZES }).work(text).unwrap();
    assert!(small.opened_by_verdict > roomy.opened_by_verdict);
    let counts = |counts: Counts| (counts.nodes, counts.passing, counts.stopping, counts.verdict);
    assert_eq!(counts(small), counts(roomy));
}

/// Without this a rule would be called too large by what an earlier step has left behind.
#[test]
fn the_verdict_is_tried_again_with_the_family_alone() {
    let text = b"grid 3 (1 4 7 2 5 8 3 6 9)";
    let in_room = |nodes| Engine::<OpenTable>::new(Sizes { nodes, ..SIZES }).work(text);
    let all = in_room(SIZES.nodes).unwrap();
    let again = in_room(all.nodes - 1).unwrap();
    assert!(again.nodes < all.nodes);
    assert_eq!((again.passing, again.stopping), (all.passing, all.stopping));
    assert_eq!(in_room(48), Err(Shortage));
}
