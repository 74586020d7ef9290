//! The compiled judge against the second reader: verdict, place, form, six
//! doubles and corners, by bits. `calls` does so for the other calls.

mod common;

use outside::compiled::{ask, disagreements, expected, Answer, Question, Symbol};
use outside::generator::large::{many_masked, many_pieces, many_texts, Words};
use outside::generator::{masked_sample, sample, targeted_files};
use outside::reader::tables::BOTH;
use outside::reader::Order;

/// Files of the mix go to the judge in runs of so many.
const RUN: u64 = 10_000;

fn agree(files: &[Vec<u8>]) {
    let lines = disagreements(files);
    assert!(lines.is_empty(), "{}", lines.join("\n"));
}

#[test]
fn a_hundred_thousand_generated_files_agree() {
    for run in 0..100_000 / RUN {
        let numbers = run * RUN..(run + 1) * RUN;
        agree(&numbers.map(|number| sample(51, number).file).collect::<Vec<_>>());
    }
}

#[test]
fn files_with_a_mask_agree() {
    agree(&(0..20_000).map(|number| masked_sample(53, number).file).collect::<Vec<_>>());
    let sorts = [(1, false), (1, true), (40_000, false), (40_000, true)];
    for order in [Order::Little, Order::Big] {
        let of = |(masks, among)| many_masked(order, 40_000, 3, masks, among);
        agree(&sorts.map(of));
    }
    for words in Words::all() {
        agree(&[1, 2_000].map(|masks| many_masked(words, 2_000, 3, masks, true)));
    }
}

#[test]
fn named_files_with_a_mask_agree() {
    let named: Vec<_> = common::masks::sorts().flat_map(common::masks::named).collect();
    agree(&named.iter().map(|case| case.file.clone()).collect::<Vec<_>>());
    let questions = named.iter().map(|case| Question::on(Symbol::Judge, &case.file));
    for (case, reply) in named.iter().zip(ask(&questions.collect::<Vec<_>>())) {
        assert_eq!((reply.numbers.verdict, reply.numbers.place), case.want, "{}", case.why);
    }
}

#[test]
fn the_targeted_cases_agree() {
    agree(&targeted_files(52).collect::<Vec<_>>());
}

#[test]
fn the_files_of_real_producers_agree() {
    agree(&common::field());
}

#[test]
fn files_of_many_pieces_agree() {
    for &family in BOTH {
        let words = Words::all().filter(|words| words.fit(family));
        let mut files: Vec<_> = words.map(|words| many_pieces(words, family, 40_000, 3)).collect();
        files.push(many_pieces(Order::Little, family, 1_000_000, 1));
        let mut cut = files[0].clone();
        cut.pop();
        files.push(cut);
        agree(&files);
    }
}

/// As many metadata tags as there is room for, and pieces between their values.
#[test]
fn files_of_many_texts_agree() {
    for order in [Order::Little, Order::Big] {
        let [file, masked] = [false, true].map(|masked| many_texts(order, 5_000, 3, masked));
        // one piece a byte longer, so that it is on a value
        let mut long = file.clone();
        let byte = file.len() - 4 * 2_500 + if order == Order::Big { 3 } else { 0 };
        long[byte] += 1;
        assert_eq!((expected(&long).verdict, expected(&long).place), (14, 2_500));
        agree(&[file, long, masked]);
    }
}

#[test]
fn an_empty_file_is_refused_by_rule_1() {
    let reply = &ask(&[Question::on(Symbol::Ground, &[])])[0];
    let refused = Answer { verdict: 1, place: 0, form: 0, six: [0; 6], corners: [0; 4] };
    assert_eq!(Answer::of(reply), refused);
}
