//! Generated scripts: what they are for, they reach.

use crate::calls::alteration::{Part, PARTS};
use crate::calls::call::Call;
use crate::calls::player::Player;
use crate::generate::script::random_script;
use std::collections::BTreeMap;

/// The calls of a script, which begins with its name and an opening.
fn calls(item: u64) -> Vec<Call> {
    let script = random_script(1, item);
    let mut lines = script.lines();
    let name = format!("# script {item} of seed 1");
    assert_eq!(lines.next(), Some(name.as_str()));
    let calls = lines.map(|line| Call::parse(line, 0).expect("a call"));
    calls.collect()
}

#[test]
fn scripts_are_long_enough_and_every_second_one_alters() {
    for item in 0..200 {
        let calls = calls(item);
        assert!(calls.len() >= 40, "script {item} has {} calls", calls.len());
        assert!(matches!(calls[0], Call::Open { .. }), "script {item}");
        let alters = calls.iter().any(|call| matches!(call, Call::Alter(_)));
        assert_eq!(alters, item % 2 == 1, "script {item}");
    }
    assert_eq!(random_script(1, 7), random_script(1, 7));
    assert_ne!(random_script(1, 7), random_script(2, 7));
}

#[test]
fn every_answer_occurs() {
    let mut seen: BTreeMap<String, usize> = BTreeMap::new();
    for item in 0..400 {
        let mut player = Player::new();
        for call in calls(item) {
            let answer = player.play(&call).expect("an answer");
            let kind: Vec<&str> = answer.split(' ').take(2).collect();
            *seen.entry(kind.join(" ")).or_default() += 1;
        }
    }
    let kinds = "turn idle, turn back, turn step, turn end, turn final, turn wait, turn none14, \
                 turn none20, turns 0, turns 15, settled 0, settled 12, settled 20, open 0, open 12, \
                 open 5, open 6, serial 0, serial 12, serial 6";
    for kind in kinds.split(", ") {
        let count = seen.get(kind).copied().unwrap_or_default();
        assert!(count >= 10, "{kind}: {seen:?}");
    }
}

#[test]
fn a_block_that_fits_fits_after_any_turn() {
    let mut turns = 0;
    for item in (1..400).step_by(2) {
        let mut player = Player::new();
        for call in calls(item) {
            let fitted = player.block.fits();
            player.play(&call).expect("an answer");
            if fitted && matches!(call, Call::Turn(_) | Call::Turns { .. }) {
                assert!(player.block.fits(), "script {item}: {call}");
                turns += 1;
            }
        }
    }
    assert!(turns >= 1_000, "only {turns}");
}

#[test]
fn every_part_is_altered_inside_and_outside_of_its_limits() {
    let mut seen: BTreeMap<(Part, bool), usize> = BTreeMap::new();
    let mut lines: BTreeMap<String, usize> = BTreeMap::new();
    for item in (1..1_000).step_by(2) {
        let mut player = Player::new();
        for call in calls(item) {
            let fitted = player.block.fits();
            player.play(&call).expect("an answer");
            let Call::Alter(alteration) = call else {
                continue;
            };
            if fitted {
                let fits = player.block.fits();
                *seen.entry((alteration.part, fits)).or_default() += 1;
            }
            let last = alteration.values.last().copied().unwrap_or_default();
            let edge = format!("{:?} {last}", alteration.part);
            *lines.entry(edge).or_default() += 1;
        }
    }
    for (part, _) in PARTS {
        for fits in [true, false] {
            // No status is a misfit.
            let least = if part == Part::Status && !fits { 0 } else { 10 };
            let count = seen.get(&(part, fits)).copied().unwrap_or_default();
            assert!(count >= least, "{part:?} {fits}: {seen:?}");
        }
    }
    let edges = "Count 17, Count 255, Size 64, Size 65, Size 255, Height 16, Height 17, Writes 8, \
                 Writes 9, Reads 8, Reads 9, Code 13, Code 14, Status 3, Status 255, Mark 255";
    for edge in edges.split(", ") {
        assert!(lines.contains_key(edge), "{edge}");
    }
}
