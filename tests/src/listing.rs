//! The listing program of paper 01, with a file and with a pipe as its standard input: it prints the oracle's listing, and
//! "input beyond the buffer is not read".
use crate::oracle::{self, Tree};
use std::fs::File;
use std::io::{ErrorKind, Seek, Write};
use std::path::PathBuf;
use std::process::{Command, Output, Stdio};
use std::time::Duration;

/// Bytes that the program reads at most: paper 01's 16,389 and the 4 of paper 02, Q-2.
const BUFFER: usize = 16_393;

/// What is to be printed.
fn listing(file: &[u8]) -> String {
    let plan = match oracle::read_plan(file, 0) {
        Ok(plan) => plan,
        Err(no) => return format!("refused {} {}\n", no.number, no.position),
    };
    let tree = Tree::of(&plan);
    let [parents, components, depths, ranks, last_ranks] = tree.columns().tables;
    let mut text = format!("{} {} {}\n", tree.plan, tree.n, tree.components);
    for v in 0..tree.n {
        let row = [parents[v], components[v], depths[v], ranks[v], last_ranks[v]].map(|number| number.to_string());
        text += &format!("{v} {}\n", row.join(" "));
    }
    text
}

fn printed(what: &str, output: Output) -> String {
    let Output { status, stdout, stderr } = output;
    assert!(status.success() && stderr.is_empty(), "the listing from {what}: {status}, {}", String::from_utf8_lossy(&stderr));
    String::from_utf8(stdout).expect("text")
}

/// What the program prints, and how many bytes of the file it has read: the two processes share its place in the file.
fn from_file(program: &str, input: &[u8]) -> (String, usize) {
    let path: PathBuf = std::env::current_exe().unwrap().with_file_name("listing.input");
    std::fs::write(&path, input).unwrap();
    let mut file = File::open(&path).unwrap();
    let output = Command::new(program).stdin(file.try_clone().unwrap()).output().unwrap();
    (printed("a file", output), file.stream_position().unwrap() as usize)
}

/// What the program prints of an input that comes in two parts, of which it may read the first before the second is there.
fn from_pipe(program: &str, input: &[u8]) -> String {
    let mut child =
        Command::new(program).stdin(Stdio::piped()).stdout(Stdio::piped()).stderr(Stdio::piped()).spawn().unwrap();
    let mut pipe = child.stdin.take().unwrap();
    let (first, second) = input.split_at(input.len() / 2);
    let written = pipe.write_all(first).and_then(|()| {
        std::thread::sleep(Duration::from_millis(10));
        pipe.write_all(second)
    });
    drop(pipe);
    match written {
        // The program may end before it has been given what it does not read.
        Err(error) if error.kind() == ErrorKind::BrokenPipe && input.len() > BUFFER => {}
        written => written.unwrap(),
    }
    printed("a pipe", child.wait_with_output().unwrap())
}

/// `paper` is how the text begins, as far as the paper says it.
pub fn hold(program: &str, input: &[u8], paper: &str) {
    let expected = listing(input);
    assert!(expected.starts_with(paper), "the oracle's listing is\n{expected}and the paper's begins\n{paper}");
    assert_eq!(from_file(program, input), (expected.clone(), input.len().min(BUFFER)), "listing and bytes read, from a file");
    assert_eq!(from_pipe(program, input), expected, "listing from a pipe");
}
