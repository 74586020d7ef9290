//! The image's table as the code has it, `crates/tags/src/table.rt`: its rows
//! are the document's, no number of a tag or of a slot stands elsewhere in the
//! code, and what every file goes through has the table folded in, none of it as
//! data. And the library asks for no name from outside.

use outside::reader::tables::{Count, Family, Need, TAGS};
use std::fs;
use std::path::{Path, PathBuf};

fn root() -> PathBuf {
    Path::new(env!("CARGO_MANIFEST_DIR")).join("..")
}

fn read(path: &str) -> String {
    fs::read_to_string(root().join(path)).unwrap_or_else(|why| panic!("{path}: {why}"))
}

/// A number of a row, by its name or in digits.
fn number(word: &str) -> u32 {
    match word {
        "Never" => 0,
        "Strips" => 1,
        "Tiles" => 2,
        "Always" => 3,
        "BYTE" => 1,
        "ASCII" => 2,
        "SHORT" => 3,
        "LONG" => 4,
        "DOUBLE" => 12,
        "MORE" => u32::MAX,
        digits => digits.parse().unwrap_or_else(|_| panic!("{word} in a row")),
    }
}

/// The rows, a line a tag.
fn rows() -> Vec<[u32; 6]> {
    let text = read("crates/tags/src/table.rt");
    let start = text.find("LINES: [Line; SLOTS] = table![").expect("the table");
    let lines = text[start..].lines().skip(1).take_while(|line| *line != "];");
    let row = |line: &str| -> [u32; 6] {
        let inner = line.trim().strip_prefix('[').and_then(|rest| rest.strip_suffix("],"));
        let words = inner.unwrap_or_else(|| panic!("{line}: a line a tag")).split(", ");
        words.map(number).collect::<Vec<_>>().try_into().expect("six numbers")
    };
    lines.map(row).collect()
}

#[test]
fn the_rows_are_the_documents() {
    let expected = TAGS.iter().map(|tag| {
        let needed = match tag.need {
            Need::Never => 0,
            Need::In(Family::Strips) => 1,
            Need::In(Family::Tiles) => 2,
            Need::Always => 3,
        };
        let (first, last) = (tag.kinds[0], tag.kinds[tag.kinds.len() - 1]);
        let (least, most) = match tag.count {
            Count::Exactly(count) => (count, count),
            Count::AtLeast(count) => (count, u32::MAX),
        };
        [u32::from(tag.tag), needed, u32::from(first), u32::from(last), least, most]
    });
    assert_eq!(rows(), expected.collect::<Vec<_>>());
}

/// The code of a line: without its comment, and nothing of a contract.
fn code(line: &str) -> &str {
    let line = line.split("//").next().unwrap_or("");
    if line.contains('⌜') || line.starts_with("ghost use") {
        ""
    } else {
        line
    }
}

/// Whether a line names a number: a constant of its own.
fn names(line: &str) -> bool {
    line.trim_start_matches("pub ").starts_with("const ") && line.ends_with(';')
}

fn digits(line: &str) -> impl Iterator<Item = u32> + '_ {
    let words = line.split(|c: char| !(c.is_alphanumeric() || c == '_'));
    words.filter_map(|word| word.parse().ok())
}

#[test]
fn no_number_of_a_tag_or_slot_stands_elsewhere() {
    // 256 is also how many keys there may be, and how many numbers a byte has.
    let tags: Vec<u32> = rows().iter().map(|row| row[0]).filter(|&tag| tag != 256).collect();
    let columns = ["found["];
    let mut seen = 0;
    for name in ["layout", "lines", "tags", "image", "judge", "rows", "texts", "block"] {
        let path = format!("crates/{name}/src/lib.rt");
        for (index, line) in read(&path).lines().enumerate() {
            let (place, line) = (format!("{path}:{}: {line}", index + 1), code(line));
            seen += 1;
            assert!(names(line) || !digits(line).any(|n| tags.contains(&n)), "{place}");
            for column in columns {
                let literal = |rest: &str| rest.starts_with(|c: char| c.is_ascii_digit());
                assert!(!line.split(column).skip(1).any(literal), "{place}");
            }
        }
    }
    assert!(seen > 1_000, "{seen} lines");
}

/// A number of so many bytes, little-endian.
fn le(bytes: &[u8], at: usize, len: usize) -> usize {
    bytes[at..at + len].iter().rev().fold(0, |n, &byte| n << 8 | usize::from(byte))
}

/// The sections of the object of an archive, each with its name and its bytes.
fn sections(object: &[u8]) -> Vec<(&[u8], &[u8])> {
    let (table, size, count, names) =
        (le(object, 0x28, 8), le(object, 0x3A, 2), le(object, 0x3C, 2), le(object, 0x3E, 2));
    let part = |i: usize| {
        let head = &object[table + i * size..];
        &object[le(head, 0x18, 8)..][..le(head, 0x20, 8)]
    };
    let strings = part(names);
    let called = |i: usize| {
        let rest = &strings[le(object, table + i * size, 4)..];
        rest.split(|&byte| byte == 0).next().unwrap_or(rest)
    };
    (0..count).map(|i| (called(i), part(i))).collect()
}

/// The bytes of the section with a name.
fn section<'a>(object: &'a [u8], name: &str) -> Option<&'a [u8]> {
    let same = |part: &&(&[u8], &[u8])| part.0 == name.as_bytes();
    sections(object).iter().find(same).map(|part| part.1)
}

/// The section whose bytes are these: its number.
fn number_of(object: &[u8], bytes: &[u8]) -> Option<usize> {
    sections(object).iter().position(|part| part.1 == bytes)
}

/// How far into the section with a number the code of a section reaches, for
/// each address in it that it holds: it is written where the code is linked.
fn addresses(object: &[u8], code: &str, into: usize) -> Vec<usize> {
    let asked = section(object, &format!(".rela{code}")).unwrap_or(&[]);
    let symbols = section(object, ".symtab").expect("symbols");
    let of = |line: &[u8]| {
        let symbol = &symbols[24 * le(line, 0xC, 4)..];
        // the address is counted from the four bytes that it is written to
        (le(symbol, 6, 2) == into).then(|| le(symbol, 8, 8) + le(line, 0x10, 4) + 4)
    };
    asked.chunks(24).filter_map(of).map(|at| at & 0xFFFF_FFFF).collect()
}

/// A row as `lines::Line` lies in memory: the tag in four bytes, when it is needed in one, and behind
/// three of padding the other numbers in eight each.
fn laid(row: &[u32; 6]) -> Vec<u8> {
    let [tag, needed, numbers @ ..] = row;
    let head = u64::from(*tag) | u64::from(*needed) << 32;
    let numbers = numbers.iter().map(|&number| u64::from(number));
    std::iter::once(head).chain(numbers).flat_map(u64::to_le_bytes).collect()
}

/// The object of the library.
fn library() -> Vec<u8> {
    let path = root().join("crates/petalbuzz/out/libpetalbuzz.a");
    let archive = fs::read(&path).unwrap_or_else(|why| panic!("{}: {why}", path.display()));
    let object = archive.windows(4).position(|bytes| bytes == b"\x7FELF").expect("an object");
    archive[object..].to_vec()
}

#[test]
fn the_library_asks_for_no_name_from_outside() {
    let object = &library()[..];
    let symbols = section(object, ".symtab").expect("symbols");
    let strings = section(object, ".strtab").expect("their names");
    let called = |symbol: &[u8]| {
        let rest = &strings[le(symbol, 0, 4)..];
        let name = rest.split(|&byte| byte == 0).next().unwrap_or(rest);
        String::from_utf8_lossy(name).into_owned()
    };
    // Section 0 is that of a name which stands elsewhere; the first symbol has none.
    let (outside, own): (Vec<&[u8]>, Vec<&[u8]>) =
        symbols.chunks(24).skip(1).partition(|symbol| le(symbol, 6, 2) == 0);
    let outside: Vec<String> = outside.into_iter().map(called).collect();
    assert!(outside.is_empty(), "{outside:?}");
    let calls = own.into_iter().map(called).filter(|name| name.starts_with("petalbuzz_")).count();
    assert_eq!(calls, 7, "calls for C");
}

#[test]
fn the_table_is_folded_into_the_code() {
    let object = &library()[..];
    // What every file goes through. A mask's judgement, beside it, gathers by the table as data.
    let code =
        section(object, ".text.judge::examine_own").expect("the judgement by the file's own rules");
    let holds = |bytes: &[u8]| code.windows(bytes.len()).any(|window| window == bytes);
    // A tag that is only told, of a row that refuses, may be read from that row, and from no other.
    let table: Vec<u8> = rows().iter().flat_map(laid).collect();
    let told: Vec<usize> = number_of(object, &table)
        .map_or(Vec::new(), |into| addresses(object, ".text.judge::examine_own", into));
    for (line, row) in rows().iter().enumerate() {
        let bytes = laid(row);
        let named = holds(&bytes[..2]) || told.contains(&(bytes.len() * line));
        assert!(named, "the code does not name tag {}", row[0]);
        assert!(!holds(&bytes[..8]), "the row of tag {} stands in the code", row[0]);
    }
    // What is found takes 840 bytes of the stack; the table would take as many again.
    let frame = code.windows(3).position(|bytes| bytes == [0x48, 0x81, 0xEC]).expect("a frame");
    let frame = le(code, frame + 3, 4);
    assert!((840..1_680).contains(&frame), "{frame} bytes of stack");
}
