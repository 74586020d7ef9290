//! Rules 18 and 19: needed keys and the numbers of the tested keys.

use super::KeyBench;
use crate::generator::keyplan::{Held, Keys};
use crate::generator::targeted::bases::{few_keys, many_keys};

pub fn cases(bench: &mut KeyBench) {
    needed(bench);
    needed_together(bench);
    bounds(bench);
    together(bench);
}

/// The keys a geographic file needs.
fn geographic() -> Keys {
    few_keys().with(1024, Held::Number(2)).without(3072).with(2048, Held::Number(4326))
}

fn needed(bench: &mut KeyBench) {
    for (keys, key) in [
        (few_keys(), 1024),
        (few_keys(), 1025),
        (few_keys(), 3072),
        (many_keys(), 3072),
        (geographic(), 1024),
        (geographic(), 1025),
        (geographic(), 2048),
    ] {
        let clause = format!("18 {key} absent");
        bench.kept(&clause, &keys.encode());
        bench.broken(&clause, &keys.without(key).encode(), key);
    }
    let crossed = geographic().without(2048).with(3072, Held::Number(32633));
    bench.broken("18 2048 absent", &crossed.encode(), 2048);
    let crossed = few_keys().without(3072).with(2048, Held::Number(4326));
    bench.broken("18 3072 absent", &crossed.encode(), 3072);
}

/// The lowest absent key is named; another model asks for neither system.
fn needed_together(bench: &mut KeyBench) {
    let free = Keys::default().with(60000, Held::Number(0));
    bench.broken("18 1024 absent", &free.encode(), 1024);
    let model = |number: u16| free.clone().with(1024, Held::Number(number));
    for number in [0, 1, 2, 3] {
        bench.broken("18 1025 absent", &model(number).encode(), 1025);
    }
    for number in [0, 3, 257, 258, 65_535] {
        let keys = model(number).with(1025, Held::Number(1)).encode();
        bench.kept_until("18 2048 absent", &keys, 19, 1024);
        bench.kept_until("18 3072 absent", &keys, 19, 1024);
    }
    let unmodelled = few_keys().without(1024).with(2054, Held::Number(0));
    bench.broken("18 1024 absent", &unmodelled.encode(), 1024);
}

/// Key, side, numbers beyond the bound, numbers just within.
type Bound = (u16, &'static str, &'static [u16], &'static [u16]);

const BOUNDS: [Bound; 16] = [
    (1024, "below", &[0], &[1]),
    (1024, "above", &[3, 257, 32_767, 65_535], &[2]),
    (1025, "below", &[0], &[1]),
    (1025, "above", &[3, 257, 32_767, 65_535], &[2]),
    (2048, "below", &[0, 4_325, 4_269], &[4_326]),
    (2048, "above", &[4_327, 32_767, 65_535], &[4_326]),
    (2054, "below", &[0, 9_101], &[9_102]),
    (2054, "above", &[9_103, 65_535], &[9_102]),
    (3072, "below", &[0, 1, 32_600], &[32_601, 32_602]),
    (3072, "between", &[32_662, 32_663, 32_700], &[32_661, 32_701]),
    (3072, "above", &[32_762, 32_767, 65_535], &[32_760, 32_761]),
    (3076, "below", &[0, 9_000], &[9_001]),
    (3076, "above", &[9_002, 9_102, 65_535], &[9_001]),
    (4096, "below", &[0, 3_854], &[3_855]),
    (
        4096,
        "between",
        &[3_856, 4_978, 4_980, 5_713, 5_716, 5_772, 5_774, 5_797],
        &[3_855, 4_979, 5_714, 5_715, 5_773, 5_798],
    ),
    (4096, "above", &[5_799, 65_535], &[5_798]),
];

/// Every bound of every tested key, in projected and in geographic files.
fn bounds(bench: &mut KeyBench) {
    for (key, side, beyond, within) in BOUNDS {
        let clause = format!("19 {key} {side}");
        for model in [1, 2] {
            let system = few_keys().with(2048, Held::Number(4326));
            let base = system.with(1024, Held::Number(model));
            for &number in within {
                bench.kept(&clause, &base.clone().with(key, Held::Number(number)).encode());
            }
            for &number in beyond {
                let keys = base.clone().with(key, Held::Number(number));
                bench.broken(&clause, &keys.encode(), key);
            }
        }
    }
}

/// Of two numbers not allowed that of the lower key is named.
fn together(bench: &mut KeyBench) {
    let tested = [1024, 1025, 2048, 2054, 3072, 3076, 4096];
    for at in 0..tested.len() - 1 {
        let mut keys = many_keys().with(2048, Held::Number(4326));
        for &key in &tested[at..] {
            keys.set(key, Held::Number(0));
        }
        bench.broken(&format!("19 {} below", tested[at]), &keys.encode(), tested[at]);
    }
}
