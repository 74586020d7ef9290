//! pieces COUNT BYTES [tiles] [texts] [mask] [short-offsets] [short-counts] [big]:
//! writes an accepted file of so many strips, or tiles, of so many bytes each to
//! standard output; with `texts` one of strips between as many metadata tags as a
//! directory has room for, with `mask` one of strips around a mask of as many, with
//! both the former with a mask that lies on its strips. Offsets and byte counts are
//! LONG, or what the two words say; SHORT offsets are for strips alone.

use outside::generator::large::{many_masked, many_pieces, many_texts, possible, Words};
use outside::reader::tables::Family;
use outside::reader::Order;
use std::io::Write;
use std::process::ExitCode;

fn main() -> ExitCode {
    let words: Vec<String> = std::env::args().skip(1).collect();
    let number = |at: usize| words.get(at).and_then(|word| word.parse::<u32>().ok());
    let (Some(count), Some(bytes)) = (number(0), number(1)) else {
        let more = "[tiles] [texts] [mask] [short-offsets] [short-counts] [big]";
        return failed(&format!("pieces COUNT BYTES {more}"));
    };
    match file(count, bytes, |wanted| words.iter().any(|word| word == wanted)) {
        Ok(file) => match std::io::stdout().write_all(&file) {
            Ok(()) => ExitCode::SUCCESS,
            Err(_) => ExitCode::FAILURE,
        },
        Err(why) => failed(&format!("pieces: {why}")),
    }
}

fn failed(why: &str) -> ExitCode {
    eprintln!("{why}");
    ExitCode::FAILURE
}

/// The file that is asked for, or why there is none.
fn file(count: u32, bytes: u32, said: impl Fn(&str) -> bool) -> Result<Vec<u8>, String> {
    let family = if said("tiles") { Family::Tiles } else { Family::Strips };
    let order = if said("big") { Order::Big } else { Order::Little };
    let words = Words { order, wide: [!said("short-offsets"), !said("short-counts")] };
    if !possible(family, count) {
        return Err(format!("no picture has {count} {}s", family.word()));
    }
    if !words.wide[1] && bytes > u16::MAX.into() {
        return Err(format!("{bytes} is no SHORT"));
    }
    let alone = words.wide[0] || (words.fit(family) && !said("texts") && !said("mask"));
    match (said("texts"), said("mask"), family) {
        _ if !alone => Err("SHORT offsets are for strips alone".to_string()),
        (false, false, _) => Ok(many_pieces(words, family, count, bytes)),
        (true, masked, Family::Strips) => Ok(many_texts(words, count, bytes, masked)),
        (false, true, Family::Strips) => Ok(many_masked(words, count, bytes, count, true)),
        _ => Err("texts, or a mask, stand between strips alone".to_string()),
    }
}
