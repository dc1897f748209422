//! The generators reach what they are for, the demands hold, and failing sessions shrink.

use super::bytes;
use crate::checker::verdict;
use crate::demands::broken_demand;
use crate::disassemble::disassemble;
use crate::generate::malformed::BREACHES;
use crate::generate::paper::random_paper;
use crate::generate::session::random_session;
use crate::generate::spoil::Draft;
use crate::instruction::{Code, Job};
use crate::random::Random;
use crate::rule::Rule;
use crate::session::{play, split_session};
use crate::shrink::shrink;
use std::collections::BTreeMap;

#[test]
fn a_seed_gives_the_same_again() {
    for item in 0..50 {
        assert_eq!(random_session(3, item), random_session(3, item));
        assert_eq!(random_paper(3, item), random_paper(3, item));
    }
    assert_ne!(random_session(3, 0), random_session(4, 0));
}

#[test]
fn the_first_random_numbers_of_a_seed_stay() {
    let mut random = Random::new(1, 0);
    let first = [random.next(), random.next()];
    assert_eq!(
        first,
        [6_791_897_765_849_424_158, 17_405_687_883_870_564_846]
    );
}

#[test]
fn sessions_show_every_word_and_refusal() {
    let mut seen: BTreeMap<String, usize> = BTreeMap::new();
    for item in 0..2_000 {
        let printed = play(&random_session(1, item), None);
        for line in printed.lines() {
            let words: Vec<&str> = line.split(' ').collect();
            let kind = match words[..] {
                ["refused", number, ..] => format!("refused {number}"),
                ["cell", ..] => "cell".to_string(),
                _ => words[1].to_string(),
            };
            *seen.entry(kind).or_default() += 1;
        }
    }
    let refusals = [3, 4, 5, 6, 7, 8, 9, 10, 11, 13].map(|number| format!("refused {number}"));
    let words = [
        "idle", "back", "step", "end", "final", "wait", "none", "cell",
    ];
    for kind in refusals.into_iter().chain(words.map(String::from)) {
        assert!(
            seen.get(&kind).is_some_and(|count| *count >= 5),
            "{kind}: {seen:?}"
        );
    }
}

#[test]
fn papers_show_every_verdict() {
    let mut seen = [0; 12];
    let mut maximal = 0;
    for item in 0..2_000 {
        match verdict(&random_paper(1, item)) {
            Ok(jobs) => {
                seen[0] += 1;
                maximal += usize::from(jobs.len() == 16 && jobs.iter().all(is_maximal));
            }
            Err(refusal) => seen[usize::from(refusal.number)] += 1,
        }
    }
    assert!(seen.iter().all(|count| *count >= 20), "{seen:?}");
    assert!(maximal > 0);
}

/// Whether a job is as large as may be.
fn is_maximal(job: &Job) -> bool {
    let count = |code: Code| {
        job.iter()
            .filter(|instruction| instruction.is(code))
            .count()
    };
    job.len() == 64 && count(Code::Read) == 8 && count(Code::Write) == 8
}

#[test]
fn sessions_have_maximal_blocks_and_all_sizes() {
    let sessions: Vec<Vec<u8>> = (0..2_000).map(|item| random_session(1, item)).collect();
    let is_largest = |session: &&Vec<u8>| {
        let jobs = split_session(session).and_then(|parts| verdict(parts.paper).ok());
        jobs.is_some_and(|jobs| jobs.len() == 16 && jobs.iter().all(is_maximal))
    };
    assert!(sessions.iter().filter(is_largest).count() >= 20);
    for size in [16_339, 16_383, 16_384, 16_385] {
        assert!(
            sessions.iter().any(|session| session.len() == size),
            "{size}"
        );
    }
}

#[test]
fn every_kind_of_breach_is_refused() {
    for (kind, breach) in BREACHES.iter().enumerate() {
        let drafts = [
            bytes_drafts("cell 5 3"),
            bytes_drafts("job\nSTOP"),
            bytes_drafts("turns 1 2"),
        ];
        let malformed = (0..20).filter(|item| {
            let session = breach(&mut Random::new(5, *item), drafts.concat());
            play(&session, None) == "refused 13 0 0\n"
        });
        // Random bytes, or a flipped bit, may happen to leave a sound session.
        assert!(malformed.count() >= 15, "kind {kind}");
    }
}

/// The one field that a line makes.
fn bytes_drafts(line: &str) -> Vec<Draft> {
    let field = bytes(line);
    vec![Draft {
        tag: field[0],
        contents: field[3..].to_vec(),
    }]
}

#[test]
fn the_demands_hold_on_generated_sessions() {
    for item in 0..300 {
        assert_eq!(
            broken_demand(&random_session(11, item)),
            None,
            "item {item}"
        );
    }
}

#[test]
fn a_failing_session_shrinks() {
    let broken = Some(Rule::BackToEarliestMark);
    let fails = |input: &[u8]| play(input, broken) != play(input, None);
    let large = |item| Some(random_session(1, item)).filter(|input| input.len() > 9_000);
    let failing = (0..2_000).filter_map(large).find(|input| fails(input));
    let smallest = shrink(&failing.expect("a large failing session"), fails);
    assert!(fails(&smallest));
    let text = disassemble(&smallest);
    assert!(smallest.len() < 300, "{text}");
}

#[test]
fn a_malformed_session_shrinks_too() {
    let input = vec![0x10; 300];
    let smallest = shrink(&input, |input| input.contains(&0x10));
    assert_eq!(smallest, [0x10]);
}
