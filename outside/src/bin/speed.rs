//! The two judges on the same files: the compiled one and the fast Rust one.
//!
//!   speed write FOLDER           the files, as frames: a length and the bytes
//!   speed count FRAMES           how many are in strips, in tiles, accepted
//!   speed time FRAMES            the best time of many passes, and the ratio
//!   speed run CALL PASSES FRAMES one call only, for counting instructions
//!
//! All but `write` and `count` need the static library linked. outside/speed
//! runs it.

use outside::generator::large::{many_masked, many_pieces, many_texts, Words};
use outside::generator::{masked_sample, plain_sample};
use outside::reader::tables::{Family, BOTH};
use outside::reader::{families, judge, Order};
use std::path::Path;
use std::process::ExitCode;

const SEED: u64 = 7;
const FILES: usize = 10_000;

fn main() -> ExitCode {
    let words: Vec<String> = std::env::args().skip(1).collect();
    let words: Vec<&str> = words.iter().map(String::as_str).collect();
    match words[..] {
        ["write", folder] => write_all(Path::new(folder)),
        ["count", path] => count(&load(path)),
        ["time", path] => measure::time(&load(path)),
        ["run", call, passes, path] => match passes.parse() {
            Ok(passes) => measure::run(call, passes, &load(path)),
            Err(_) => return usage(),
        },
        _ => return usage(),
    }
    ExitCode::SUCCESS
}

fn usage() -> ExitCode {
    eprintln!("speed write FOLDER\nspeed count FRAMES\nspeed time FRAMES");
    eprintln!("speed run CALL PASSES FRAMES");
    ExitCode::FAILURE
}

/// The bytes of each piece of the files of many pieces.
const PIECE: u32 = 3;

/// How many strips the files of many metadata tags have. Each is tried against every
/// tag, so that counting the instructions of a million takes long.
const STRIPS: u32 = 100_000;

/// How many strips the files of each pair of types have, and those with a mask.
const FEWER: u32 = 40_000;

/// The mix with every second file damaged, drawn with at most one metadata
/// tag and of minor revision 0, the same of each byte order alone, one file each
/// of many strips and of many tiles, one of strips for each other pair of types and
/// byte order, and files of many metadata tags, one of them with a mask on its strips.
/// Then files with a mask: a mix, and some of many strips with the mask behind these
/// or among them, in one strip or in as many.
fn write_all(folder: &Path) {
    let mix = || (0..).map(|number| plain_sample(SEED, number).file);
    let of_order = |mark: u8| mix().filter(move |file| file.first() == Some(&mark));
    write(folder, "mixed", mix().take(FILES));
    write(folder, "little", of_order(0x49).take(FILES));
    write(folder, "big", of_order(0x4D).take(FILES));
    for &family in BOTH {
        for pieces in [40_000, 1_000_000] {
            let name = format!("{}s-{pieces}", family.word());
            let file = many_pieces(Order::Little, family, pieces, PIECE);
            write(folder, &name, [file].into_iter());
        }
    }
    for words in Words::all().filter(|words| *words != Order::Little.into()) {
        let file = many_pieces(words, Family::Strips, FEWER, PIECE);
        write(folder, &format!("strips-{words}-{FEWER}"), [file].into_iter());
    }
    for (name, masked) in [("tags", false), ("covered", true)] {
        let file = many_texts(Order::Little, STRIPS, PIECE, masked);
        write(folder, &format!("{name}-{STRIPS}"), [file].into_iter());
    }
    write(folder, "masked", (0..FILES as u64).map(|number| masked_sample(SEED, number).file));
    for (name, masks, among) in [("behind", 1, false), ("among", 1, true), ("masks", FEWER, false)]
    {
        let file = many_masked(Order::Little, FEWER, PIECE, masks, among);
        write(folder, &format!("{name}-{FEWER}"), [file].into_iter());
    }
}

fn write(folder: &Path, name: &str, files: impl Iterator<Item = Vec<u8>>) {
    let mut frames = Vec::new();
    for file in files {
        frames.extend_from_slice(&(file.len() as u32).to_le_bytes());
        frames.extend_from_slice(&file);
    }
    std::fs::write(folder.join(name), frames).expect("a folder to write to");
}

/// The files of a run of frames.
fn load(path: &str) -> Vec<Vec<u8>> {
    let frames = std::fs::read(path).unwrap_or_else(|why| panic!("{path}: {why}"));
    let (mut files, mut rest) = (Vec::new(), &frames[..]);
    while let Some((length, after)) = rest.split_first_chunk::<4>() {
        let (file, after) = after.split_at(u32::from_le_bytes(*length) as usize);
        files.push(file.to_vec());
        rest = after;
    }
    files
}

/// Prints how many of the files carry a tag of each family, by the directory
/// that rules 1 to 5 leave, and how many the second reader accepts.
fn count(files: &[Vec<u8>]) {
    // by tags of strips, by tags of tiles: all files, and the accepted ones
    let mut found = [[[0; 2]; 2]; 2];
    let mut closed = 0;
    for file in files {
        let present = families(file);
        closed += usize::from(present.is_none());
        let carries = |family| usize::from(present.iter().flatten().any(|&one| one == family));
        let (strips, tiles) = (carries(Family::Strips), carries(Family::Tiles));
        found[strips][tiles][0] += 1;
        found[strips][tiles][1] += usize::from(judge(file).verdict.number == 0);
    }
    let [[[neither, _], [tiles, tiles_kept]], [[strips, strips_kept], [both, _]]] = found;
    println!(
        "{} of {} files with a tag of tiles, {} with one of strips, {both} with both, \
         {neither} with neither ({closed} without a directory); {} accepted, {tiles_kept} in tiles",
        tiles + both,
        files.len(),
        strips + both,
        tiles_kept + strips_kept
    );
}

#[cfg(not(direct))]
mod measure {
    pub fn time(_: &[Vec<u8>]) {
        panic!("the static library is not linked: it is missing, or the machine is not x86-64");
    }

    pub fn run(_: &str, _: usize, _: &[Vec<u8>]) {
        time(&[]);
    }
}

#[cfg(direct)]
mod measure {
    use outside::compiled::{ground_into, rows_into, verdict_of, Raw};
    use outside::fast;
    use std::hint::black_box;
    use std::time::Instant;

    /// The calls by name; each gives a sum of its answer.
    const CALLS: [(&str, fn(&[Vec<u8>]) -> u64); 4] = [
        ("compiled-ground", |files| pass(files, compiled_ground)),
        ("fast-ground", |files| pass(files, fast_ground)),
        ("compiled-judge", |files| pass(files, |file| sum(verdict_of(file)))),
        ("fast-judge", |files| pass(files, |file| sum(fast::verdict(file)))),
    ];

    /// The rows call, which the fast judge has not.
    const ROWS: (&str, fn(&[Vec<u8>]) -> u64) = ("compiled-rows", |files| {
        let mut rows = [[0; 5]; 256];
        files.iter().fold(0, |all, file| {
            let (verdict, place, keys) = rows_into(black_box(file), black_box(&mut rows));
            all.wrapping_add(sum((verdict, place)) ^ u64::from(keys))
        })
    });

    #[inline(always)]
    fn pass(files: &[Vec<u8>], call: impl Fn(&[u8]) -> u64) -> u64 {
        files.iter().fold(0, |all, file| all.wrapping_add(call(black_box(file))))
    }

    #[inline(always)]
    fn sum((verdict, place): (u32, u32)) -> u64 {
        u64::from(verdict) << 32 | u64::from(place)
    }

    #[inline(always)]
    fn compiled_ground(file: &[u8]) -> u64 {
        let mut raw = Raw { verdict: 0, place: 0, form: 0, six: [0.0; 6], corners: [0.0; 4] };
        ground_into(file, &mut raw);
        sum((raw.verdict, raw.place)) ^ raw.corners[3].to_bits()
    }

    #[inline(always)]
    fn fast_ground(file: &[u8]) -> u64 {
        let mut ground = fast::Ground::default();
        sum(fast::judge(file, &mut ground)) ^ ground.corners[3].to_bits()
    }

    /// Passes take about this long in all, for each call.
    const SECONDS: f64 = 1.5;

    /// The best and the middle time of each call, the passes of all in turn.
    pub fn time(files: &[Vec<u8>]) {
        let sums = CALLS.map(|(_, call)| call(files));
        assert!(sums[0] == sums[1] && sums[2] == sums[3], "the judges differ: {sums:?}");
        let mut times = CALLS.map(|_| Vec::new());
        let start = Instant::now();
        while start.elapsed().as_secs_f64() < SECONDS * CALLS.len() as f64 {
            for (at, (_, call)) in CALLS.iter().enumerate() {
                let start = Instant::now();
                assert_eq!(black_box(call(files)), sums[at]);
                times[at].push(start.elapsed().as_secs_f64() * 1e9 / files.len() as f64);
            }
        }
        let best = times.map(|mut all| {
            all.sort_unstable_by(f64::total_cmp);
            (all[0], all[all.len() / 2], all.len())
        });
        for (at, (name, _)) in CALLS.iter().enumerate() {
            let (least, middle, passes) = best[at];
            println!("  {name:16} {least:10.1} ns a file, middle {middle:.1}, {passes} passes");
        }
        let ratio = |one: usize| best[one].0 / best[one + 1].0;
        println!("  ratio of the best: ground {:.2}, judge {:.2}", ratio(0), ratio(2));
    }

    /// So many passes of one call.
    pub fn run(name: &str, passes: usize, files: &[Vec<u8>]) {
        let found = CALLS.iter().chain([&ROWS]).find(|call| call.0 == name);
        let Some((_, call)) = found else { panic!("no call {name}") };
        let total = (0..passes).fold(0u64, |all, _| all.wrapping_add(call(files)));
        println!("{} files, sum {total:016x}", files.len());
    }
}
