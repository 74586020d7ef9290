//! Prints for each file what the reader gives: the lines of the bench program
//! first, then the minor revision, georeference, corners, lengths of the key
//! block, citations and metadata, all to be compared by hand.

use outside::reader::{
    citation, judge, judge_clause, key_block, key_rows, metadata, reading_list, texts,
    Georeference, Row,
};
use std::process::ExitCode;

fn main() -> ExitCode {
    let paths: Vec<String> = std::env::args().skip(1).collect();
    if paths.is_empty() {
        eprintln!("show FILE...");
        return ExitCode::FAILURE;
    }
    for path in &paths {
        match std::fs::read(path) {
            Ok(file) => show(path, &file),
            Err(error) => {
                eprintln!("{path}: {error}");
                return ExitCode::FAILURE;
            }
        }
    }
    ExitCode::SUCCESS
}

fn hex(doubles: &[f64]) -> String {
    let words = doubles.iter().map(|double| format!("{:016X}", double.to_bits()));
    words.collect::<Vec<String>>().join(" ")
}

fn show(path: &str, file: &[u8]) {
    println!("file {path} n {}", file.len());
    let judged = judge(file);
    println!("verdict {} place {}", judged.verdict.number, judged.verdict.place);
    println!("clause {}", judge_clause(file).1);
    println!("list {:?}", reading_list(file));
    if judged.verdict.number != 0 {
        return;
    }
    println!("keys {}", judged.keys);
    rows(file);
    println!("minor revision {}", judged.minor);
    match judged.georeference {
        Georeference::Scaled(six) => println!("scaled {}", hex(&six)),
        Georeference::Affine(six) => println!("affine {}", hex(&six)),
    }
    println!("corners {}", hex(&judged.corners));
    println!("corners in decimal {:?}", judged.corners);
    block(file);
    citations(file);
    metadata_texts(file);
}

fn rows(file: &[u8]) {
    let mut lent = [Row::default(); 256];
    let (_, keys) = key_rows(file, &mut lent);
    for row in &lent[..keys as usize] {
        println!("{row}");
    }
}

/// The longest key block: each location's last start is at most 65,535.
const ROOM: usize = 1 << 21;

fn block(file: &[u8]) {
    let block = key_block(file, &mut vec![0; ROOM]);
    let [directory, doubles, characters] = block.lengths;
    let (number, place) = (block.verdict.number, block.verdict.place);
    println!("block verdict {number} place {place} lengths {directory} {doubles} {characters}");
}

fn citations(file: &[u8]) {
    for key in [1026, 2049, 3073, 4097] {
        let cited = citation(file, key);
        if cited.verdict.number == 0 {
            let text = &file[cited.start..cited.start + cited.length];
            println!("citation {key} at {} {:?}", cited.start, String::from_utf8_lossy(text));
        }
    }
}

/// Each text by its number; where there is none, the outside text is number 0.
fn metadata_texts(file: &[u8]) {
    for number in 0..texts(file).max(1) as u32 {
        let text = metadata(file, &[], number);
        match text.from {
            0 => println!("metadata {number} in the file at {} length {}", text.start, text.length),
            _ => println!("metadata {number} outside"),
        }
    }
}
