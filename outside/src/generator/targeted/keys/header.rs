//! Rules 15 and 16: the header of the key directory and the order of keys.

use super::KeyBench;
use crate::generator::keyplan::{Encoded, Held, Keys};
use crate::generator::targeted::bases::{few_keys, many_keys};

pub fn cases(bench: &mut KeyBench) {
    first_numbers(bench);
    number_of_keys(bench);
    room_for_keys(bench);
    key_order(bench);
    key_ends(bench);
}

/// The keys with one number of the directory replaced.
fn replaced(keys: &Encoded, at: usize, number: u16) -> Encoded {
    let mut keys = keys.clone();
    keys.directory[at] = number;
    keys
}

fn first_numbers(bench: &mut KeyBench) {
    let keys = few_keys().encode();
    for (at, clause) in ["15 first number", "15 second number"].iter().enumerate() {
        for number in [0, 2, 256, 65_535] {
            bench.broken(clause, &replaced(&keys, at, number), 0);
        }
        bench.kept(clause, &keys);
    }
    // 256 is 1 in the other byte order, 257 is 1 by each of its bytes
    for minors in [[2, 3], [2, 256], [2, 257], [2, 65_535]] {
        bench.add("15 third number", true, (&keys, &minors), (15, 0));
    }
    bench.add("15 third number", false, (&keys, &[1, 0]), (0, 0));
}

/// So many keys, all beside the needed ones of kind other.
fn counted(count: u16) -> Keys {
    let mut keys = few_keys();
    for number in 0..count - 3 {
        keys.list.push((10_000 + number, Held::Number(number)));
    }
    keys
}

fn number_of_keys(bench: &mut KeyBench) {
    bench.kept("15 K above 256", &counted(256).encode());
    bench.broken("15 K above 256", &counted(257).encode(), 0);
    for number in [257, 512, 65_535] {
        bench.broken("15 K above 256", &replaced(&few_keys().encode(), 3, number), 0);
    }
    let mut none = few_keys().encode();
    none.directory = vec![1, 1, 0, 0];
    bench.kept_until("15 K above 256", &none, 18, 1024);
    bench.kept_until("15 count below 4 + 4K", &none, 18, 1024);
}

/// One number too few, exactly enough, one to spare.
fn room_for_keys(bench: &mut KeyBench) {
    let clause = "15 count below 4 + 4K";
    for keys in [few_keys().encode(), counted(256).encode()] {
        bench.kept(clause, &keys);
        let mut more = keys.clone();
        more.directory.push(9);
        bench.kept(clause, &more);
        let mut less = keys.clone();
        less.directory.pop();
        bench.broken(clause, &less, 0);
    }
    let few = few_keys().encode();
    for number in [4, 255, 256] {
        bench.broken(clause, &replaced(&few, 3, number), 0);
    }
    let mut bare = few.clone();
    bare.directory = vec![1, 1, 0, 1];
    bench.broken(clause, &bare, 0);
    bench.kept_until(clause, &replaced(&few, 3, 2), 18, 3072);
}

fn key_order(bench: &mut KeyBench) {
    let keys = many_keys().encode();
    let numbers: Vec<u16> = many_keys().list.iter().map(|key| key.0).collect();
    bench.kept("16 equal key", &keys);
    bench.kept("16 smaller key", &keys);
    for position in 1..numbers.len() {
        let before = numbers[position - 1];
        bench.broken("16 equal key", &keys.clone().put(position, 0, before), before);
        for number in [before - 1, 0] {
            bench.broken("16 smaller key", &keys.clone().put(position, 0, number), number);
        }
    }
    let twice = keys.clone().put(5, 0, 5).put(3, 0, 3).put(0, 1, 9);
    bench.broken("16 smaller key", &twice, 3);
    let last = numbers.len() - 1;
    let all_of_16_first = keys.put(0, 1, 34737).put(last, 0, numbers[last - 1]);
    bench.broken("16 equal key", &all_of_16_first, numbers[last - 1]);
}

/// The lowest and the highest key there are.
fn key_ends(bench: &mut KeyBench) {
    let keys = few_keys().with(0, Held::Number(5)).with(1, Held::Number(6));
    let keys = keys.with(65_534, Held::Number(7)).with(65_535, Held::Number(8)).encode();
    bench.kept("16 smaller key", &keys);
    bench.broken("16 equal key", &keys.clone().put(1, 0, 0), 0);
    bench.broken("16 equal key", &keys.put(5, 0, 65_535), 65_535);
}
