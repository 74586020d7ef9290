//! Every targeted case gives the verdict and place that it must give by
//! construction, and where it is broken the reader names the same clause.

use outside::generator::{random, targeted, Call, Case};
use outside::reader::judge;

fn fault(case: &Case) -> Option<String> {
    let (verdict, clause) = case.answer();
    let agrees = verdict == case.want && (!case.broken || clause == case.clause);
    let call = match &case.call {
        Call::ReadBlock(_) => "ReadBlock".to_string(),
        other => format!("{other:?}"),
    };
    let (broken, want) = (case.broken, case.want);
    let about = format!("{:?} broken {broken} {call} want {want:?}", case.clause);
    (!agrees).then(|| format!("{about}, got {verdict:?} {clause:?}"))
}

#[test]
fn targeted_cases_give_their_verdicts() {
    for seed in [1, 2, 3] {
        let faults: Vec<String> = targeted(seed).iter().filter_map(fault).collect();
        assert!(faults.is_empty(), "seed {seed}: {} of\n{}", faults.len(), faults.join("\n"));
    }
}

#[test]
fn undamaged_random_files_are_accepted() {
    for (number, sample) in random(7, 6_000).iter().enumerate() {
        if !sample.damaged {
            let verdict = judge(&sample.file).verdict;
            assert_eq!((verdict.number, verdict.place), (0, 0), "file {number}");
        }
    }
}

#[test]
fn the_same_seed_gives_the_same_files() {
    let files = |seed: u64| targeted(seed).into_iter().map(|case| case.file).collect::<Vec<_>>();
    assert_eq!(files(5), files(5));
    assert_ne!(files(5), files(6));
    let mix = |seed: u64| random(seed, 50).into_iter().map(|s| s.file).collect::<Vec<_>>();
    assert_eq!(mix(5), mix(5));
    assert_ne!(mix(5), mix(6));
}
