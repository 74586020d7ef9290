//! Prints which clause of which rule the generated files break, which they
//! keep at its boundary, and which varieties the accepted files show.

use outside::generator::{random, targeted, Case};
use outside::reader::clauses::{CLAUSES, UNREACHABLE};
use outside::reader::{judge_clause, varieties, VARIETIES};
use std::collections::BTreeMap;

const SEED: u64 = 1;
const RANDOM_FILES: u64 = 20_000;

type Counts = BTreeMap<&'static str, u64>;

fn main() {
    let cases = targeted(SEED);
    let samples = random(SEED, RANDOM_FILES);
    let (mut broken, mut kept, mut shown) = (Counts::new(), Counts::new(), Counts::new());
    for case in &cases {
        let clause = if case.broken { case.answer().1 } else { case.clause };
        *if case.broken { &mut broken } else { &mut kept }.entry(clause).or_insert(0) += 1;
    }
    let mut stray = Counts::new();
    let files = samples.iter().map(|sample| &sample.file).chain(cases.iter().map(|c| &c.file));
    for file in files {
        varieties(file).iter().for_each(|label| *shown.entry(label).or_insert(0) += 1);
    }
    for sample in &samples {
        *stray.entry(judge_clause(&sample.file).1).or_insert(0) += 1;
    }
    clause_table(&broken, &kept, &stray);
    variety_table(&shown);
    summary(&cases, &broken, &kept, &stray, &shown);
}

fn count(counts: &Counts, name: &str) -> u64 {
    counts.get(name).copied().unwrap_or(0)
}

fn clause_table(broken: &Counts, kept: &Counts, stray: &Counts) {
    println!("rule | clause | broken files | kept-at-boundary files | broken by random files");
    for clause in CLAUSES {
        let block = clause.starts_with("block ");
        let words = clause.trim_start_matches("block ");
        let (rule, what) = words.split_once(' ').expect("a rule and what is wrong");
        let rule = if block { format!("block {rule}") } else { rule.to_string() };
        let reason = UNREACHABLE.iter().find(|(name, _)| name == clause);
        let note = reason.map_or(String::new(), |(_, why)| format!(" | unreachable: {why}"));
        let (b, k, s) = (count(broken, clause), count(kept, clause), count(stray, clause));
        println!("{rule} | {what} | {b} | {k} | {s}{note}");
    }
}

fn variety_table(shown: &Counts) {
    println!("\nvariety of accepted files | files");
    for label in VARIETIES {
        println!("{label} | {}", count(shown, label));
    }
}

fn summary(cases: &[Case], broken: &Counts, kept: &Counts, stray: &Counts, shown: &Counts) {
    let reached = CLAUSES.iter().filter(|clause| count(broken, clause) > 0).count();
    let bounded = CLAUSES.iter().filter(|clause| count(kept, clause) > 0).count();
    let strayed = CLAUSES.iter().filter(|clause| count(stray, clause) > 0).count();
    println!("\ntargeted cases {}, random files {RANDOM_FILES}", cases.len());
    println!("random files accepted {}", count(stray, "accepted"));
    println!("clauses {}, unreachable {}", CLAUSES.len(), UNREACHABLE.len());
    println!("clauses broken {reached}, kept at the boundary {bounded}, by random files {strayed}");
    println!("varieties {}, shown {}", VARIETIES.len(), shown.len());
}
