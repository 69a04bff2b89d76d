//! The listing text: of a tree, by an implementation's own calls, and by a
//! program.

use crate::calls::{Calls, DIRECTORY_SIZE};
use crate::plain::reader;
use crate::plain::tree::Node;
use std::io::Write;
use std::path::Path;
use std::process::{Command, Stdio};

/// The listing of an image, as the paper states it.
pub fn plain(image: &[u8]) -> Vec<u8> {
    let tree = match reader::judge(image) {
        Ok(tree) => tree,
        Err(refusal) => return refused(refusal.number),
    };
    let mut text = head(tree.pages as u64, tree.free() as u64);
    for (path, entry) in tree.paths() {
        let letter = match entry.node {
            Node::File(_) => "F",
            Node::Directory(_) => "D",
        };
        text.extend(line(letter, entry.node.size(&tree.shape), &path));
    }
    text
}

/// The listing of an image by a verdict and a walk of list calls.
pub fn by_calls(calls: &dyn Calls, image: &[u8]) -> Vec<u8> {
    let verdict = calls.verdict(image);
    if !verdict.is_granted() {
        return refused(verdict.number);
    }
    let mut text = head(verdict.values[0], verdict.values[1]);
    list_directory(calls, image, b"", &mut text);
    text
}

/// Lists the directory `path`, written without a last `/`.
fn list_directory(calls: &dyn Calls, image: &[u8], path: &[u8], text: &mut Vec<u8>) {
    let (argument, entries): (&[u8], u64) = match path {
        b"" => (b"/", 6),
        _ => (path, 8),
    };
    for number in 0..entries {
        let answer = calls.list(image, argument, number);
        let [occupied, kind, size, _] = answer.values;
        if occupied == 0 {
            continue;
        }
        let padding = answer.name.iter().position(|&byte| byte == 0);
        let name = &answer.name[..padding.unwrap_or(answer.name.len())];
        let below = [path, b"/", name].concat();
        if kind == 0 {
            text.extend(line("F", size, &below));
        } else {
            text.extend(line("D", DIRECTORY_SIZE, &below));
            list_directory(calls, image, &below, text);
        }
    }
}

/// What the program writes for the image on its standard input.
pub fn by_program(program: &Path, image: &[u8]) -> Vec<u8> {
    let mut child = Command::new(program)
        .stdin(Stdio::piped())
        .stdout(Stdio::piped())
        .spawn()
        .unwrap_or_else(|error| panic!("{} does not start: {error}", program.display()));
    let mut input = child.stdin.take().expect("a pipe");
    // A program that has read enough may close its input early.
    let _ = input.write_all(image);
    drop(input);
    child.wait_with_output().expect("an output").stdout
}

/// Sees that the text is the expected one, and tells the first line that isn't.
pub fn assert_same(who: &str, text: &[u8], expected: &[u8]) {
    if text == expected {
        return;
    }
    let lines = |bytes: &[u8]| -> Vec<String> {
        let lines = bytes.split_inclusive(|&byte| byte == b'\n');
        lines.map(|line| line.escape_ascii().to_string()).collect()
    };
    let (text, expected) = (lines(text), lines(expected));
    let same = text
        .iter()
        .zip(&expected)
        .take_while(|(left, right)| left == right);
    let first = same.count();
    let (got, wanted) = (text.get(first), expected.get(first));
    panic!("listing by {who}: line {first} is {got:?}, expected {wanted:?}");
}

fn head(pages: u64, free: u64) -> Vec<u8> {
    format!("pages {pages} free {free}\n").into_bytes()
}

fn line(letter: &str, size: u64, path: &[u8]) -> Vec<u8> {
    let mut line = format!("{letter} {size} ").into_bytes();
    line.extend_from_slice(path);
    line.push(b'\n');
    line
}

fn refused(number: u8) -> Vec<u8> {
    format!("refused {number}\n").into_bytes()
}
