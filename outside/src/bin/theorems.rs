//! Writes a module of theorems about the paper's definitions: for each clause
//! the smallest targeted cases on both sides of its boundary, with one metadata
//! tag or none and with more, accepted in either minor revision, with a next
//! offset or without, and some random files, each with every answer that the
//! second reader gives. The checker computes the definitions on each file and
//! compares.

use outside::generator::{random, targeted, Call, Case};
use outside::reader::{
    citation, judge, key_block, key_rows, leads_on, metadata, read_block, reading_list,
    several_texts, texts, Block, Cited, Georeference, Judged, ReadBack, Row, Text, Verdict,
};
use std::collections::BTreeMap;
use std::fmt::Write;

/// No file above this size is written as a theorem.
const LARGEST: usize = 1500;

fn main() {
    let mut arguments = std::env::args().skip(1);
    let seed = arguments.next().and_then(|word| word.parse().ok()).unwrap_or(1);
    let count = arguments.next().and_then(|word| word.parse().ok()).unwrap_or(60);
    let mut page = Page::default();
    for case in chosen(targeted(seed)) {
        page.case(&case);
    }
    for sample in random(seed, count) {
        if sample.file.len() <= LARGEST {
            page.file(&sample.file, &format!("random, damaged: {}", sample.damaged));
        }
    }
    print!("{}{}", HEAD, page.text);
    eprintln!("{} theorems", page.number);
}

/// The minor revision that a case shows: 0 where it is refused.
fn minor(case: &Case) -> u32 {
    match &case.call {
        Call::ReadBlock([directory, doubles, characters]) => {
            read_block(directory, doubles, characters).minor
        }
        _ => judge(&case.file).minor,
    }
}

/// The smallest case of each clause and side, of those with more than one
/// metadata tag, of those with a next offset, and of those of minor revision 1.
fn chosen(cases: Vec<Case>) -> Vec<Case> {
    let mut best: BTreeMap<(&'static str, bool, [bool; 2], u32), Case> = BTreeMap::new();
    for case in cases {
        if case.file.len() > LARGEST {
            continue;
        }
        let sort = [several_texts(&case.file), leads_on(&case.file)];
        let kind = (case.clause, case.broken, sort, minor(&case));
        match best.get(&kind) {
            Some(other) if other.file.len() <= case.file.len() => {}
            _ => {
                best.insert(kind, case);
            }
        }
    }
    best.into_values().collect()
}

const HEAD: &str = "-- What the definitions give for generated files is what the second reader gives, computed. Written by outside/src/bin/theorems.rs.
-- Assumes nothing.
use Prim.Native.Nat.{ℕ}
use mathlib.Core.Path.{◌≡◌, refl}
use mathlib.Core.List.{List, [], ◌∷◌}
use lib.ListN.{replicate}
use lib.Ieee as Ieee
use lib.Ieee.{Float, binary64}
use Rattle.paper.specs.Outcome.{verdict}
use Rattle.paper.specs.Pieces.{part}
use Rattle.paper.specs.Judge.{reading_list}
use Rattle.paper.specs.Calls.{judged_of, rows_of, left_rows, cited_of, text_of, reading_back}
use Rattle.paper.specs.Block.{block_of, block_left}
use Rattle.paper.proofs.Computed.{computed}
use Rattle.paper.specs.declared.Corners.{Corners}
use Rattle.paper.specs.declared.Row.{Row}
use Rattle.paper.specs.declared.Georeference.TheVariants.{Scaled, Affine}

row : ℕ → ℕ → ℕ → ℕ → ℕ → Row
row k n f l e = record { key = k; kind = n; first = f; len = l; entry = e }

double : ℕ → Float
unfolding Ieee.of_bits Ieee.of_fields Ieee.odd
double b = Ieee.of_bits binary64 b

four : ℕ → ℕ → ℕ → ℕ → Corners
unfolding double
four a b c d = record { x0 = double a; y0 = double b; x1 = double c; y1 = double d }
";

#[derive(Default)]
struct Page {
    text: String,
    number: usize,
}

impl Page {
    fn case(&mut self, case: &Case) {
        let why = format!("{}, {}", case.clause, if case.broken { "broken" } else { "kept" });
        match &case.call {
            Call::Judge => self.file(&case.file, &why),
            Call::Rows(lent) => self.rows(&case.file, *lent, &why),
            Call::Citation(key) => self.cited(&case.file, *key, &why),
            Call::Metadata(number) => {
                let name = self.named(&case.file, &why);
                self.text_of(&case.file, &name, *number);
            }
            Call::Block(room) => self.block(&case.file, *room, &why),
            Call::ReadBlock([directory, doubles, characters]) => {
                let ReadBack { verdict, keys, minor } = read_block(directory, doubles, characters);
                let runs = [directory, doubles, characters].map(|run| format!("({})", bytes(run)));
                let answer = format!(
                    "record {{ verdict = {}; keys = {keys}; minor = {minor} }}",
                    number(verdict)
                );
                self.theorem(&format!("reading_back {}", runs.join(" ")), &answer, &why);
            }
        }
    }

    /// The judgement, the reading list and a text that no file has; of an
    /// accepted file the other calls too.
    fn file(&mut self, file: &[u8], why: &str) {
        let judged = judge(file);
        let name = self.named(file, why);
        self.theorem(&format!("judged_of {name}"), &judgement(&judged), "");
        let parts = reading_list(file).into_iter();
        let parts =
            parts.map(|range| format!("part {} {} ∷ ", range.start, range.end - range.start));
        self.theorem(&format!("reading_list {name}"), &(parts.collect::<String>() + "[]"), "");
        self.text_of(file, &name, u32::MAX);
        if judged.verdict.number == 0 {
            self.more(file, &name, judged.keys as usize);
        }
    }

    /// Every other call on an accepted file.
    fn more(&mut self, file: &[u8], name: &str, keys: usize) {
        self.rows_of(file, name, keys + 1);
        for key in [1026, 3073] {
            self.cited_of(file, name, key);
        }
        // every text of a file of a few, and the number behind the last
        for number in 0..=texts(file).min(4) {
            self.text_of(file, name, number as u32);
        }
        let mut large = vec![170u8; 4000];
        let lengths = key_block(file, &mut large).lengths;
        self.block_of(file, name, lengths.iter().sum::<usize>() + 3);
    }

    fn rows(&mut self, file: &[u8], lent: usize, why: &str) {
        let name = self.named(file, why);
        self.rows_of(file, &name, lent);
    }

    fn rows_of(&mut self, file: &[u8], name: &str, lent: usize) {
        let blank = Row::of([9; 5]);
        let mut rows = vec![blank; lent];
        let (verdict, keys) = key_rows(file, &mut rows);
        self.theorem(&format!("rows_of {name} {lent}"), &counted(verdict, keys), "");
        let mut list = String::new();
        for row in &rows {
            let _ = write!(list, "row {row} ∷ ");
        }
        self.theorem(
            &format!("left_rows {name} (replicate {lent} (row {blank}))"),
            &(list + "[]"),
            "",
        );
    }

    /// The text of that number, with an outside text of five bytes.
    fn text_of(&mut self, file: &[u8], name: &str, number: u32) {
        let answer = text(&metadata(file, &[7; 5], number));
        self.theorem(&format!("text_of {name} {number} 5"), &answer, "");
    }

    fn cited(&mut self, file: &[u8], key: u32, why: &str) {
        let name = self.named(file, why);
        self.cited_of(file, &name, key);
    }

    fn cited_of(&mut self, file: &[u8], name: &str, key: u32) {
        let Cited { verdict, start, length } = citation(file, key);
        let answer =
            format!("record {{ verdict = {}; start = {start}; len = {length} }}", number(verdict));
        self.theorem(&format!("cited_of {name} {key}"), &answer, "");
    }

    fn block(&mut self, file: &[u8], room: usize, why: &str) {
        let name = self.named(file, why);
        self.block_of(file, &name, room);
    }

    fn block_of(&mut self, file: &[u8], name: &str, room: usize) {
        let mut out = vec![170u8; room];
        let Block { verdict, lengths: [directory, doubles, characters] } =
            key_block(file, &mut out);
        let answer = format!(
            "record {{ verdict = {}; directory = {directory}; doubles = {doubles}; characters = {characters} }}",
            number(verdict)
        );
        self.theorem(&format!("block_of {name} {room}"), &answer, "");
        self.theorem(&format!("block_left {name} (replicate {room} 170)"), &bytes(&out), "");
    }

    /// A file under a name of its own.
    fn named(&mut self, file: &[u8], why: &str) -> String {
        self.number += 1;
        let name = format!("f{}", self.number);
        let _ =
            write!(self.text, "\n-- {why}\nunfoldable {name} : List ℕ\n{name} = {}\n", bytes(file));
        name
    }

    fn theorem(&mut self, left: &str, right: &str, why: &str) {
        self.number += 1;
        let name = format!("t{}", self.number);
        let files: Vec<&str> = left
            .split([' ', '(', ')'])
            .filter(|word| word.starts_with('f') && word[1..].parse::<u32>().is_ok())
            .collect();
        if !why.is_empty() {
            let _ = write!(self.text, "\n-- {why}");
        }
        let _ = write!(
            self.text,
            "\n{name} : {left} ≡ {right}\nunfolding computed row four double {}\n{name} = refl\n",
            files.join(" ")
        );
    }
}

fn bytes(run: &[u8]) -> String {
    let mut list = String::new();
    for byte in run {
        let _ = write!(list, "{byte} ∷ ");
    }
    list + "[]"
}

fn number(verdict: Verdict) -> String {
    format!("verdict {} {}", verdict.number, verdict.place)
}

fn counted(verdict: Verdict, keys: u32) -> String {
    format!("record {{ verdict = {}; keys = {keys} }}", number(verdict))
}

fn text(text: &Text) -> String {
    let Text { verdict, from, start, length } = text;
    format!(
        "record {{ verdict = {}; from = {from}; start = {start}; len = {length} }}",
        number(*verdict)
    )
}

fn judgement(judged: &Judged) -> String {
    let (case, six) = match judged.georeference {
        Georeference::Scaled(six) => ("Scaled", six),
        Georeference::Affine(six) => ("Affine", six),
    };
    let six: Vec<String> = six.iter().map(|x| format!("(double {})", x.to_bits())).collect();
    let four: Vec<String> = judged.corners.iter().map(|x| x.to_bits().to_string()).collect();
    format!(
        "record {{ verdict = {}; keys = {}; minor = {}; georeference = {case} {}; corners = four {} }}",
        number(judged.verdict),
        judged.keys,
        judged.minor,
        six.join(" "),
        four.join(" ")
    )
}
