//! fetches FOLDER EMULATOR WORD...: how often the compiled library loads each word of
//! the pieces, their offsets and byte counts. Makes files of many pieces in the folder
//! and has calls made on each by host/fetched.c, which the words run under the
//! emulator, with x86/loads.c as its plugin; how often a word may be loaded is the
//! second reader's to say. Then, with x86/count.c, how many instructions a strip takes
//! by the types of its words and the byte order: no more than two LONGs of a
//! little-endian file and what it takes to turn the bytes. Prints a line a test, with
//! the loads of a word of each run, the fewest and the most, and 'N passed, M failed'
//! last. outside/fetches runs it.
//!
//! In a line L and S are LONG and SHORT, of the offsets and then of the byte counts,
//! II and MM the byte order.

use outside::generator::large::{many_masked, many_pieces, many_texts, Words};
use outside::reader::tables::{Family, BOTH};
use outside::reader::{
    citation, judge, key_block, key_rows, metadata, word_runs, Order, Row, Verdict, WordRun,
};
use std::ops::Range;
use std::path::Path;
use std::process::{Command, ExitCode};

/// Where the file is mapped, in hexadecimal: far below all else in an x86-64 program.
const ADDRESS: &str = "1000000000";

/// How many pieces a plain file has, how many any other, and two places between.
const PLAIN: u32 = 40_000;
const OTHERS: u32 = 2_000;
const MIDDLE: u32 = 1_000;
const LATER: u32 = 1_500;

/// The bytes of a piece.
const BYTES: u32 = 3;

/// Offsets that break rule 13, and rule 14: the image's directory stands first.
const OUTSIDE: u32 = 0;
const LISTED: u32 = 8;

/// A file, the calls to be made on it, the verdict that it must have, and how often a
/// call may load a word of its image.
struct Case {
    what: String,
    file: Vec<u8>,
    calls: &'static [&'static str],
    verdict: (u32, u32),
    most: u64,
}

impl Case {
    /// An accepted file to be judged, no word of its image to be loaded twice.
    fn new(what: String, file: Vec<u8>) -> Self {
        Case { what, file, calls: &["judge"], verdict: (0, 0), most: 1 }
    }
}

/// The folder for the files, with the plugins in it, and how host/fetched.c is run.
struct Bench<'a> {
    folder: &'a Path,
    emulator: &'a str,
    program: &'a [String],
}

fn main() -> ExitCode {
    let words: Vec<String> = std::env::args().skip(1).collect();
    let [folder, emulator, program @ ..] = &words[..] else {
        eprintln!("fetches FOLDER EMULATOR WORD...");
        return ExitCode::FAILURE;
    };
    let bench = Bench { folder: Path::new(folder), emulator, program };
    let (mut passed, mut failed) = (0, 0);
    let mut tell = |what: &str, tried: Result<String, String>| {
        let good = tried.is_ok();
        *(if good { &mut passed } else { &mut failed }) += 1;
        let mark = if good { "ok    " } else { "FAILED" };
        println!("{mark}  {what}: {}", tried.unwrap_or_else(|why| why));
    };
    for case in Words::all().flat_map(cases) {
        tell(&case.what, tried(&case, &bench));
    }
    for (what, passes, file) in COSTS {
        for words in Words::all() {
            tell(&format!("{words} a strip{what}"), cost(words, passes, file, &bench));
        }
    }
    println!("{passed} passed, {failed} failed");
    if failed == 0 && passed > 0 {
        ExitCode::SUCCESS
    } else {
        ExitCode::FAILURE
    }
}

fn cases(words: Words) -> impl Iterator<Item = Case> {
    let of_calls = if words == words.order.into() { called(words) } else { Vec::new() };
    plain(words).chain(faulty(words)).chain(masked(words)).chain(moved(words)).chain(of_calls)
}

/// Files of pieces, and of strips that jump from gap to gap between metadata tags.
fn plain(words: Words) -> impl Iterator<Item = Case> {
    let families = BOTH.iter().filter(move |family| words.fit(**family));
    let sorts = families.flat_map(|family| [3, PLAIN].map(|pieces| (*family, pieces)));
    let of_pieces = sorts.map(move |(family, pieces)| {
        let what = format!("{words} {pieces} {}s", family.word());
        Case::new(what, many_pieces(words, family, pieces, BYTES))
    });
    let what = format!("{words} {OTHERS} strips between 1013 metadata tags");
    of_pieces.chain([Case::new(what, many_texts(words, OTHERS, BYTES, false))])
}

/// Strips that break rule 13 or 14.
fn faulty(words: Words) -> impl Iterator<Item = Case> {
    let file = many_pieces(words, Family::Strips, OTHERS, BYTES);
    let offsets = word_runs(&file).swap_remove(0);
    let (outside, listed, later) = ((MIDDLE, OUTSIDE), (MIDDLE, LISTED), (LATER, OUTSIDE));
    let faults = [
        ("one outside", vec![outside], (13, MIDDLE)),
        ("one on the list", vec![listed], (14, MIDDLE)),
        ("one on the list, a later one outside", vec![listed, later], (13, LATER)),
    ];
    faults.into_iter().map(move |(fault, changes, verdict)| {
        let mut file = file.clone();
        for (piece, number) in changes {
            put(&mut file, words.order, &offsets, piece, number);
        }
        Case { verdict, ..Case::new(format!("{words} {OTHERS} strips, {fault}"), file) }
    })
}

/// Strips with a mask, in one strip or in as many.
fn masked(words: Words) -> impl Iterator<Item = Case> {
    let sorts = [
        ("before a mask in one", 1, false),
        ("around a mask in one", 1, true),
        ("before a mask in as many", OTHERS, false),
        ("around a mask in as many", OTHERS, true),
    ];
    sorts.into_iter().map(move |(sort, masks, among)| {
        let file = many_masked(words, OTHERS, BYTES, masks, among);
        let most = if among { 2 } else { 1 };
        Case { most, ..Case::new(format!("{words} {OTHERS} strips {sort}"), file) }
    })
}

/// Strips before a mask in as many, one of them or of the mask at another place.
fn moved(words: Words) -> impl Iterator<Item = Case> {
    let file = many_masked(words, OTHERS, BYTES, OTHERS, false);
    let runs = word_runs(&file);
    // run 0 has the offsets of the image, run 2 those of the mask
    let (first, mask) = (number(&file, words.order, &runs[0], 0), runs[2].bytes.start as u32);
    let moves = [
        ("one of the mask on the first of the image", 2, 0, first, (0, 0), 1),
        ("one on the list of the mask", 0, MIDDLE, mask, (28, 14), 2),
        ("one of the mask on the list of the image", 2, MIDDLE, LISTED, (28, 14), 1),
        ("one of the mask outside", 2, MIDDLE, OUTSIDE, (28, 13), 1),
    ];
    moves.into_iter().map(move |(how, run, piece, number, verdict, most)| {
        let mut file = file.clone();
        put(&mut file, words.order, &runs[run], piece, number);
        let what = format!("{words} {OTHERS} strips before a mask in as many, {how}");
        Case { verdict, most, ..Case::new(what, file) }
    })
}

/// The calls beside `judge`, without a mask and around one; and two calls, of which
/// the second is seen.
fn called(words: Words) -> Vec<Case> {
    let calls: [&[&str]; 6] =
        [&["ground"], &["rows"], &["citation"], &["metadata"], &["key_block"], &["judge", "judge"]];
    let sorts = [
        ("", many_pieces(words, Family::Strips, OTHERS, BYTES), 1),
        (" around a mask in one", many_masked(words, OTHERS, BYTES, 1, true), 2),
    ];
    let cases = sorts.iter().flat_map(|(sort, file, most)| {
        calls.map(|calls| {
            let what = format!("{words} {OTHERS} strips{sort}, {}", calls.join(" and "));
            Case { calls, most: *most, ..Case::new(what, file.clone()) }
        })
    });
    cases.collect()
}

/// Makes the calls of a case and holds the loads of each word to what they may be.
fn tried(case: &Case, bench: &Bench) -> Result<String, String> {
    let runs = word_runs(&case.file);
    let Verdict { number, place } = judge(&case.file).verdict;
    assert_eq!(((number, place), runs[0].most), (case.verdict, case.most), "{}", case.what);
    let loads = loads(case, bench)?;
    let seen: Vec<String> = runs.iter().map(|run| shown(run, &loads)).collect();
    let calls = case.calls.len() as u64;
    match runs.iter().find_map(|run| fault(run, calls, &loads)) {
        None => Ok(seen.join(", ")),
        Some(fault) => Err(format!("{}; {fault}", seen.join(", "))),
    }
}

/// How often each byte of the file is loaded.
fn loads(case: &Case, bench: &Bench) -> Result<Vec<u8>, String> {
    let loads = bench.run("loads", &case.file, case.calls)?;
    assert_eq!(loads.len(), case.file.len(), "the loads of each byte");
    Ok(loads)
}

impl Bench<'_> {
    /// Has the calls made on a file, and gives what the plugin of that name wrote.
    fn run(&self, plugin: &str, file: &[u8], calls: &[&str]) -> Result<Vec<u8>, String> {
        let [path, told] = ["file", "told"].map(|name| self.folder.join(name));
        std::fs::write(&path, file).expect("a folder to write to");
        let _ = std::fs::remove_file(&told);
        let mut command = Command::new(self.emulator);
        command.arg("-plugin").arg(self.folder.join(format!("{plugin}.so")));
        // The program finds these words on its stack: as many bytes of them in every run,
        // so that what it does before the call, and with its stack, is always the same.
        command.env_clear().env("LOADS_OUT", &told).env("COUNT_OUT", &told);
        command.env("LOADS_FROM", ADDRESS).env("LOADS_LENGTH", format!("{:010}", file.len()));
        command.args(self.program).arg(ADDRESS).arg(&path).args(calls);
        let output = command.output().map_err(|why| why.to_string())?;
        let said = String::from_utf8_lossy(&output.stdout);
        let wanted: String = calls.iter().map(|call| answer(call, file)).collect();
        if !output.status.success() || said != wanted {
            let errors = String::from_utf8_lossy(&output.stderr);
            return Err(format!("'{}', not '{}': {}", said.trim(), wanted.trim(), errors.trim()));
        }
        std::fs::read(&told).map_err(|why| format!("nothing told: {why}"))
    }
}

/// Files of so many strips, and how often the words of a strip are fetched there.
type Cost = (&'static str, u64, fn(Words, u32) -> Vec<u8>);
const COSTS: [Cost; 3] = [
    ("", 1, |words, strips| many_pieces(words, Family::Strips, strips, BYTES)),
    (" before a mask", 1, |words, strips| many_masked(words, strips, BYTES, 1, false)),
    (" around a mask", 2, |words, strips| many_masked(words, strips, BYTES, 1, true)),
];

/// What a strip takes, against two LONGs of a little-endian file and the turning of its
/// words where they are big-endian: an instruction for a LONG, two for a SHORT.
fn cost(
    words: Words,
    passes: u64,
    file: fn(Words, u32) -> Vec<u8>,
    bench: &Bench,
) -> Result<String, String> {
    let more = u64::from(OTHERS - MIDDLE);
    let taken = |words| {
        Ok::<u64, String>(
            instructions(&file(words, OTHERS), bench)? - instructions(&file(words, MIDDLE), bench)?,
        )
    };
    let turning: u64 = match words.order {
        Order::Little => 0,
        Order::Big => words.wide.iter().map(|wide| if *wide { 1 } else { 2 }).sum(),
    };
    let most = taken(Order::Little.into())? + passes * turning * more;
    let seen = taken(words)?;
    let each = |all: u64| format!("{:.1}", all as f64 / more as f64);
    // a few for where the strips end
    match seen <= most + 50 {
        true => Ok(format!("{} instructions of at most {}", each(seen), each(most))),
        false => Err(format!("{} instructions, not {}", each(seen), each(most))),
    }
}

/// All instructions of the program that judges a file.
fn instructions(file: &[u8], bench: &Bench) -> Result<u64, String> {
    let told = bench.run("count", file, &["judge"])?;
    let text = String::from_utf8_lossy(&told);
    let all = text.lines().next().and_then(|line| line.strip_suffix(" all")?.parse().ok());
    all.ok_or_else(|| "no count".to_string())
}

/// What the program is to print on a call.
fn answer(call: &str, file: &[u8]) -> String {
    let Verdict { number, place } = match call {
        "rows" => key_rows(file, &mut [Row::default(); 256]).0,
        "citation" => citation(file, 1026).verdict,
        "metadata" => metadata(file, &[], 0).verdict,
        "key_block" => key_block(file, &mut vec![0; 1 << 21]).verdict,
        _ => judge(file).verdict,
    };
    format!("verdict {number} place {place}\n")
}

/// The bytes of one word.
fn word(run: &WordRun, piece: u64) -> Range<usize> {
    let size = (run.bytes.end - run.bytes.start) / run.pieces;
    let start = (run.bytes.start + size * piece) as usize;
    start..start + size as usize
}

fn put(file: &mut [u8], order: Order, run: &WordRun, piece: u32, number: u32) {
    let at = word(run, piece.into());
    let mut bytes = number.to_be_bytes()[4 - at.len()..].to_vec();
    if order == Order::Little {
        bytes.reverse();
    }
    file[at].copy_from_slice(&bytes);
}

fn number(file: &[u8], order: Order, run: &WordRun, piece: u32) -> u32 {
    let mut bytes = file[word(run, piece.into())].to_vec();
    if order == Order::Little {
        bytes.reverse();
    }
    bytes.iter().fold(0, |number, byte| number << 8 | u32::from(*byte))
}

/// The fewest and the most loads of a byte.
fn ends(loads: &[u8]) -> (u64, u64) {
    let all = || loads.iter().map(|&times| u64::from(times));
    (all().min().expect("a byte"), all().max().expect("a byte"))
}

fn times((fewest, most): (u64, u64)) -> String {
    match fewest == most {
        true => most.to_string(),
        false => format!("{fewest}..{most}"),
    }
}

/// The loads of the words of a run.
fn shown(run: &WordRun, loads: &[u8]) -> String {
    let bytes = run.bytes.start as usize..run.bytes.end as usize;
    format!("{} {}", run.what, times(ends(&loads[bytes])))
}

/// The first word of a run that so many calls load too often, or of a piece that they
/// need and did not each load.
fn fault(run: &WordRun, calls: u64, loads: &[u8]) -> Option<String> {
    (0..run.pieces).find_map(|piece| {
        let seen = ends(&loads[word(run, piece)]);
        let right = (if piece < run.needed { calls } else { 0 }, calls * run.most);
        let wrong = seen.0 < right.0 || seen.1 > right.1;
        let what = || format!("piece {piece}: {} {}, not {}", run.what, times(seen), times(right));
        wrong.then(what)
    })
}
