//! What the second reader says that the reply to a question must be.

use super::expected;
use super::question::{Numbers, Question, Reply, Symbol, ROW};
use crate::reader::{self, Row, Verdict};

/// The reply by the second reader: the same numbers and the same bytes.
pub fn reply(question: &Question) -> Reply {
    let mut numbers = Numbers::default();
    let mut bytes = question.bytes();
    let room = &mut bytes[question.room()];
    let [file, second, _] = question.runs;
    let verdict = match question.symbol {
        Symbol::Judge => reader::judge(file).verdict,
        Symbol::Ground => ground(file, &mut numbers),
        Symbol::Rows => rows(file, room, &mut numbers),
        Symbol::Citation => citation(file, question.asked, &mut numbers),
        Symbol::Metadata => metadata(file, second, question.asked, &mut numbers),
        Symbol::KeyBlock => key_block(file, room, &mut numbers),
        Symbol::ReadBlock => read_block(question.runs, &mut numbers),
    };
    (numbers.verdict, numbers.place) = (verdict.number, verdict.place);
    Reply { numbers, bytes }
}

fn ground(file: &[u8], numbers: &mut Numbers) -> Verdict {
    let answer = expected(file);
    numbers.third = answer.form;
    numbers.wide[..6].copy_from_slice(&answer.six);
    numbers.wide[6..].copy_from_slice(&answer.corners);
    Verdict { number: answer.verdict, place: answer.place }
}

fn counted((verdict, keys): (Verdict, u32), numbers: &mut Numbers) -> Verdict {
    numbers.third = keys;
    verdict
}

fn part(start: usize, length: usize, numbers: &mut Numbers) {
    numbers.wide[..2].copy_from_slice(&[start as u64, length as u64]);
}

/// The rows that stand in a run of bytes.
fn rows_in(bytes: &[u8]) -> Vec<Row> {
    let row = |bytes: &[u8]| {
        let word = |at: usize| u32::from_le_bytes(bytes[at..at + 4].try_into().expect("four"));
        Row::of([0, 4, 8, 12, 16].map(word))
    };
    bytes.chunks_exact(ROW).map(row).collect()
}

fn rows(file: &[u8], room: &mut [u8], numbers: &mut Numbers) -> Verdict {
    let mut rows = rows_in(room);
    let answer = reader::key_rows(file, &mut rows);
    for (row, to) in rows.iter().zip(room.chunks_exact_mut(ROW)) {
        let words = row.numbers().map(u32::to_le_bytes);
        to.copy_from_slice(&words.concat());
    }
    counted(answer, numbers)
}

fn citation(file: &[u8], key: u32, numbers: &mut Numbers) -> Verdict {
    let cited = reader::citation(file, key);
    part(cited.start, cited.length, numbers);
    cited.verdict
}

fn metadata(file: &[u8], outside: &[u8], number: u32, numbers: &mut Numbers) -> Verdict {
    let text = reader::metadata(file, outside, number);
    numbers.third = text.from;
    part(text.start, text.length, numbers);
    text.verdict
}

fn key_block(file: &[u8], room: &mut [u8], numbers: &mut Numbers) -> Verdict {
    let block = reader::key_block(file, room);
    numbers.wide[..3].copy_from_slice(&block.lengths.map(|length| length as u64));
    block.verdict
}

fn read_block([directory, doubles, characters]: [&[u8]; 3], numbers: &mut Numbers) -> Verdict {
    let back = reader::read_block(directory, doubles, characters);
    (numbers.third, numbers.fourth) = (back.keys, back.minor);
    back.verdict
}
