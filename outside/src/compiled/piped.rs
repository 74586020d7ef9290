//! The C host, asked over a pipe: a frame for each question, and for each its
//! numbers and the lent bytes back. `host/host.c` says how a frame looks.

use super::question::{Numbers, Question, Reply};
use std::io::{Read, Write};
use std::path::Path;
use std::process::{Command, Stdio};

/// The path of the host's runner; the host must hold the library that is there,
/// byte for byte: `host/build` keeps a copy of the one it linked.
fn runner() -> std::path::PathBuf {
    let root = Path::new(env!("CARGO_MANIFEST_DIR")).join("..");
    let read = |path: &str| std::fs::read(root.join(path)).ok();
    let Some(library) = read("crates/petalbuzz/out/libpetalbuzz.a") else {
        panic!("crates/petalbuzz/out/libpetalbuzz.a is missing: run 'rt lib' in crates/petalbuzz")
    };
    if cfg!(target_arch = "x86_64") {
        panic!("the static library came after this was built: run cargo again");
    }
    let run = root.join("out/run-host");
    let Some(linked) = read("out/host.a").filter(|_| run.is_file()) else {
        panic!("out/host.a or out/run-host is missing: run 'host/build'")
    };
    assert!(library == linked, "out/host holds another library: run 'host/build'");
    run
}

/// A question as one frame: its head, then all that it lends.
fn frame(question: &Question) -> Vec<u8> {
    let [one, two, three] = question.runs.map(<[u8]>::len);
    let number = |length: usize| u32::try_from(length).expect("a run of at most 4 GiB");
    let sizes = [question.margin, question.memory.len(), one, two, three].map(number);
    let head = [&[question.symbol as u32, question.asked], &sizes[..]].concat();
    let mut bytes: Vec<u8> = head.iter().flat_map(|number| number.to_le_bytes()).collect();
    bytes.extend(question.bytes());
    bytes
}

/// Everything that the host answers to these questions.
fn served(questions: &[Question]) -> Vec<u8> {
    let run = runner();
    let mut child = Command::new(&run)
        .arg("--serve")
        .stdin(Stdio::piped())
        .stdout(Stdio::piped())
        .spawn()
        .unwrap_or_else(|why| panic!("{} does not start: {why}", run.display()));
    let mut input = child.stdin.take().expect("piped");
    let mut output = child.stdout.take().expect("piped");
    let mut answers = Vec::new();
    std::thread::scope(|scope| {
        // a host that has died is named below
        scope.spawn(move || questions.iter().try_for_each(|asked| input.write_all(&frame(asked))));
        output.read_to_end(&mut answers).expect("the host's answers");
    });
    let status = child.wait().expect("the host's status");
    assert!(status.success(), "out/host stopped with {status}");
    answers
}

/// The replies of the library to these questions.
pub fn ask(questions: &[Question]) -> Vec<Reply> {
    let answers = served(questions);
    let mut rest = &answers[..];
    let mut replies = Vec::with_capacity(questions.len());
    for question in questions {
        let (numbers, after) = rest.split_first_chunk().expect("a record to each frame");
        let (bytes, after) = after.split_at(question.length());
        replies.push(Reply { numbers: Numbers::read(numbers), bytes: bytes.to_vec() });
        rest = after;
    }
    assert!(rest.is_empty(), "one answer a frame");
    replies
}
