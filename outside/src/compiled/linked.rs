//! The static library, linked. The only unsafe code of this package.
#![allow(unsafe_code)]

use super::question::{Numbers, Question, Reply, Symbol, ROW, UNWRITTEN};

extern "C" {
    fn petalbuzz_judge(file: *const u8, len: usize, verdict: *mut u32, place: *mut u32);
    fn petalbuzz_ground(
        file: *const u8,
        len: usize,
        verdict: *mut u32,
        place: *mut u32,
        form: *mut u32,
        six: *mut [f64; 6],
        corners: *mut [f64; 4],
    );
    fn petalbuzz_rows(
        file: *const u8,
        len: usize,
        rows: *mut [u32; 5],
        room: usize,
        verdict: *mut u32,
        place: *mut u32,
        keys: *mut u32,
    );
    fn petalbuzz_citation(
        file: *const u8,
        len: usize,
        key: u32,
        verdict: *mut u32,
        place: *mut u32,
        start: *mut usize,
        length: *mut usize,
    );
    fn petalbuzz_metadata(
        file: *const u8,
        len: usize,
        outside: *const u8,
        outside_len: usize,
        number: u32,
        verdict: *mut u32,
        place: *mut u32,
        from: *mut u32,
        start: *mut usize,
        length: *mut usize,
    );
    fn petalbuzz_key_block(
        file: *const u8,
        len: usize,
        out: *mut u8,
        room: usize,
        verdict: *mut u32,
        place: *mut u32,
        lengths: *mut [usize; 3],
    );
    fn petalbuzz_read_block(
        directory: *const u8,
        directory_len: usize,
        doubles: *const u8,
        doubles_len: usize,
        characters: *const u8,
        characters_len: usize,
        verdict: *mut u32,
        place: *mut u32,
        keys: *mut u32,
        minor: *mut u32,
    );
}

/// The memory that `petalbuzz_ground` writes.
#[derive(Clone, Copy, Debug)]
pub struct Raw {
    pub verdict: u32,
    pub place: u32,
    pub form: u32,
    pub six: [f64; 6],
    pub corners: [f64; 4],
}

#[inline]
pub fn ground_into(file: &[u8], raw: &mut Raw) {
    // SAFETY: a slice's pointer is not null and its length is right; the
    // numbers are aligned fields of one exclusive reference
    unsafe {
        petalbuzz_ground(
            file.as_ptr(),
            file.len(),
            &mut raw.verdict,
            &mut raw.place,
            &mut raw.form,
            &mut raw.six,
            &mut raw.corners,
        );
    }
}

#[inline]
pub fn verdict_of(file: &[u8]) -> (u32, u32) {
    let (mut verdict, mut place) = (UNWRITTEN, UNWRITTEN);
    // SAFETY: as above, with two locals for the numbers
    unsafe { petalbuzz_judge(file.as_ptr(), file.len(), &mut verdict, &mut place) };
    (verdict, place)
}

/// The verdict, the place and K; the rows are lent.
#[inline]
pub fn rows_into(file: &[u8], rows: &mut [[u32; 5]]) -> (u32, u32, u32) {
    let (mut verdict, mut place, mut keys) = (UNWRITTEN, UNWRITTEN, UNWRITTEN);
    let (v, p, k) = (&mut verdict, &mut place, &mut keys);
    // SAFETY: as above, and as many rows are lent as the slice has
    unsafe { petalbuzz_rows(file.as_ptr(), file.len(), rows.as_mut_ptr(), rows.len(), v, p, k) };
    (verdict, place, keys)
}

/// The replies of the library to these questions.
pub fn ask(questions: &[Question]) -> Vec<Reply> {
    questions.iter().map(reply).collect()
}

/// The reply to one question. All that is lent lies in one run of words, so
/// that the memory at its start is aligned for rows.
fn reply(question: &Question) -> Reply {
    let mut bytes = question.bytes();
    let length = bytes.len();
    bytes.resize(length.next_multiple_of(8) + 8, 0);
    let word = |bytes: &[u8]| u64::from_ne_bytes(bytes.try_into().expect("eight bytes"));
    let mut words: Vec<u64> = bytes.chunks_exact(8).map(word).collect();
    let mut numbers = Numbers::default();
    // SAFETY: the words hold the memory and then the runs, by their lengths
    unsafe { call(question, words.as_mut_ptr().cast(), &mut numbers) };
    let mut bytes: Vec<u8> = words.iter().flat_map(|word| word.to_ne_bytes()).collect();
    bytes.truncate(length);
    Reply { numbers, bytes }
}

/// Makes the call that is asked.
///
/// # Safety
/// `lent` points to the memory and the runs of the question, one behind the
/// other, at an address for words; nobody else uses them.
unsafe fn call(question: &Question, lent: *mut u8, numbers: &mut Numbers) {
    let [one, two, three] = question.runs.map(<[u8]>::len);
    let (out, room) = (lent.add(question.margin), question.room().len());
    let first = lent.add(question.memory.len()).cast_const();
    let second = first.add(one);
    let third = second.add(two);
    let asked = question.asked;
    let (v, p) = (&mut numbers.verdict, &mut numbers.place);
    let (t, minor) = (&mut numbers.third, &mut numbers.fourth);
    let wide = numbers.wide.as_mut_ptr();
    let (start, length): (*mut usize, *mut usize) = (wide.cast(), wide.add(1).cast());
    match question.symbol {
        Symbol::Judge => petalbuzz_judge(first, one, v, p),
        Symbol::Ground => petalbuzz_ground(first, one, v, p, t, wide.cast(), wide.add(6).cast()),
        Symbol::Rows => petalbuzz_rows(first, one, out.cast(), room / ROW, v, p, t),
        Symbol::Citation => petalbuzz_citation(first, one, asked, v, p, start, length),
        Symbol::Metadata => {
            petalbuzz_metadata(first, one, second, two, asked, v, p, t, start, length);
        }
        Symbol::KeyBlock => petalbuzz_key_block(first, one, out, room, v, p, wide.cast()),
        Symbol::ReadBlock => {
            petalbuzz_read_block(first, one, second, two, third, three, v, p, t, minor);
        }
    }
}
