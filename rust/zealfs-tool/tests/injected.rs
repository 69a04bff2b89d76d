//! Errors and kills at every system call of every command that changes an image: afterwards the name leads to the old image or to the new one,
//! whole, and what the status says is so. By `strace -e inject`.

mod common;

use common::{damaged, example, example_two, Folder, DATE, TOOL};
use std::collections::HashMap;
use std::process::{Command, Stdio};

struct Case {
    /// The words of the command.
    words: &'static [&'static str],
    /// The image before; none if there is none.
    before: Option<Vec<u8>>,
    /// The status when all goes well.
    status: i32,
    /// Whether the image before is kept as loan.img~ once the new one is there.
    is_kept: bool,
}

struct SystemCall {
    name: String,
    /// How often it was made so far.
    count: usize,
    result: u64,
}

impl SystemCall {
    fn injections(&self) -> Vec<String> {
        let others = match self.name.as_str() {
            // a full disk, and one that says it has written all or half, and has not
            "write" => vec!["error=ENOSPC".to_owned(), format!("retval={}", self.result), format!("retval={}", self.result / 2)],
            "flock" => vec!["error=ENOLCK".to_owned(), "error=EAGAIN".to_owned()],
            "openat" => vec!["error=EACCES".to_owned(), "error=EMFILE".to_owned()],
            "rename" => vec!["error=EACCES".to_owned(), "error=EROFS".to_owned()],
            _ => vec![],
        };
        ["error=EIO".to_owned(), "signal=KILL".to_owned()].into_iter().chain(others).collect()
    }
}

impl Case {
    fn folder(&self) -> Folder {
        let folder = Folder::new();
        if let Some(image) = &self.before {
            folder.write("loan.img", image);
        }
        folder.write("a.txt", &[b'a'; 300]);
        folder.write("table", b"0042 12\n42 7\n");
        folder
    }

    fn strace(&self, folder: &Folder, options: &[&str]) -> Option<i32> {
        let mut command = Command::new("strace");
        command.args(options).arg(TOOL).args(self.words).current_dir(&folder.0);
        let status = command.stdin(Stdio::null()).stdout(Stdio::null()).stderr(Stdio::null()).status();
        status.expect("strace runs").code()
    }

    /// The system calls of a run without errors; and the image that it leaves.
    fn calls(&self) -> (Vec<SystemCall>, Vec<u8>) {
        let folder = self.folder();
        assert_eq!(self.strace(&folder, &["-qq", "-o", "trace"]), Some(self.status), "{:?}", self.words);
        let trace = String::from_utf8_lossy(&folder.read("trace")).into_owned();
        let mut counts = HashMap::new();
        let mut calls = Vec::new();
        for (name, rest) in trace.lines().filter_map(|line| line.split_once('(')) {
            let is_name = name.bytes().all(|byte| byte.is_ascii_alphanumeric() || byte == b'_');
            if !is_name || ["execve", "exit_group"].contains(&name) {
                continue;
            }
            let count = *counts.entry(name.to_owned()).and_modify(|count| *count += 1).or_insert(1);
            let result = rest.rsplit_once(" = ").and_then(|(_, result)| result.parse().ok()).unwrap_or(0);
            calls.push(SystemCall { name: name.to_owned(), count, result });
        }
        (calls, folder.read("loan.img"))
    }

    /// One run with something injected; what the folder then must hold.
    fn inject(&self, call: &str, count: usize, what: &str, new: &[u8]) -> &'static str {
        let folder = self.folder();
        let rule = format!("inject={call}:{what}:when={count}");
        let status = self.strace(&folder, &["-qq", "-o", "/dev/null", "-e", &rule]);
        let shown = format!("{:?} with {rule}: status {status:?}, {:?}", self.words, folder.names());
        let now = folder.has("loan.img").then(|| folder.read("loan.img"));
        let is_new = now.as_deref() == Some(new);
        // a new image begins as an empty file that takes the name
        let is_old = now == self.before || (self.before.is_none() && now.as_deref() == Some(&[]));
        assert!(is_new || is_old, "the image is torn: {shown}");
        assert!(is_new || status != Some(self.status), "said to be done and is not: {shown}");
        assert!(status != Some(101), "a panic: {shown}");
        assert!(![Some(2), Some(4), Some(16)].contains(&status), "an error of a file is told as another: {shown}");
        if is_new && self.is_kept {
            assert!(folder.has("loan.img~") && Some(folder.read("loan.img~")) == self.before, "not kept: {shown}");
        }
        let is_killed = status.is_none_or(|status| status > 128);
        let is_left = folder.names().iter().any(|name| name.ends_with(".tmp"));
        assert!(!is_left || is_killed || call.starts_with("unlink"), "something is left: {shown}");
        match (is_killed, is_new) {
            (true, _) => "killed",
            (false, true) => "new",
            (false, false) => "old",
        }
    }

    fn run(&self) {
        // it may be there and yet not be allowed to look on
        let can_trace =
            Command::new("strace").args(["-o", "/dev/null", "true"]).stderr(Stdio::null()).status().is_ok_and(|status| status.success());
        if !can_trace {
            assert!(std::env::var_os("ZEALFS_WANT_STRACE").is_none(), "strace is not there, or may not trace");
            return eprintln!("NOT TRIED: strace is not there, or may not trace");
        }
        let (calls, new) = self.calls();
        let mut met: HashMap<&str, usize> = HashMap::new();
        for call in &calls {
            for what in call.injections() {
                *met.entry(self.inject(&call.name, call.count, &what, &new)).or_default() += 1;
            }
        }
        println!("injected: {:?}: {} system calls: {met:?}", self.words, calls.len());
        assert!(["killed", "new", "old"].iter().all(|what| met.contains_key(what)), "{met:?}");
    }
}

fn changing(words: &'static [&'static str]) -> Case {
    Case { words, before: Some(example()), status: 0, is_kept: false }
}

#[test]
fn put() {
    changing(&["put", "--date", DATE, "loan.img", "a.txt", "/8"]).run();
}

#[test]
fn put_over() {
    changing(&["put", "-o", "--date", DATE, "loan.img", "a.txt", "/0042"]).run();
}

#[test]
fn rm() {
    changing(&["rm", "loan.img", "/0042"]).run();
}

/// The example after a command of its own.
fn after(words: &[&str]) -> Option<Vec<u8>> {
    let folder = Folder::with_example();
    folder.done(words);
    Some(folder.read("loan.img"))
}

#[test]
fn mkdir() {
    changing(&["mkdir", "--date", DATE, "loan.img", "/B"]).run();
}

#[test]
fn rmdir() {
    Case { words: &["rmdir", "loan.img", "/A"], before: after(&["rm", "loan.img", "/A/7"]), status: 0, is_kept: false }.run();
}

#[test]
fn lock() {
    changing(&["lock", "loan.img", "/0042"]).run();
}

#[test]
fn unlock() {
    Case { words: &["unlock", "loan.img", "/0042"], before: after(&["lock", "loan.img", "/0042"]), status: 0, is_kept: false }.run();
}

#[test]
fn repair() {
    Case { words: &["repair", "loan.img"], before: Some(damaged(19)), status: 1, is_kept: true }.run();
}

#[test]
fn format_over() {
    Case { words: &["format", "-f", "loan.img", "4k"], before: Some(example()), status: 0, is_kept: true }.run();
}

#[test]
fn format_new() {
    Case { words: &["format", "loan.img", "4k"], before: None, status: 0, is_kept: false }.run();
}

/// Version 2's images take the same way.
fn changing_two(words: &'static [&'static str]) -> Case {
    Case { words, before: Some(example_two()), status: 0, is_kept: false }
}

#[test]
fn put_into_version_two() {
    changing_two(&["put", "--date", DATE, "loan.img", "a.txt", "/8"]).run();
}

#[test]
fn put_over_in_version_two() {
    changing_two(&["put", "-o", "--date", DATE, "loan.img", "a.txt", "/0042"]).run();
}

#[test]
fn remove_and_lock_in_version_two() {
    changing_two(&["rm", "loan.img", "/0042"]).run();
    changing_two(&["lock", "loan.img", "/0042"]).run();
}

#[test]
fn format_version_two() {
    Case { words: &["format", "--v2", "-f", "loan.img", "128k"], before: Some(example()), status: 0, is_kept: true }.run();
    Case { words: &["format", "-f", "loan.img", "4k"], before: Some(example_two()), status: 0, is_kept: true }.run();
    Case { words: &["format", "--v2", "loan.img", "4k"], before: None, status: 0, is_kept: false }.run();
}

#[cfg(has_tidy)]
#[test]
fn tidy() {
    let folder = Folder::with_example();
    folder.done(&["rm", "loan.img", "/0042"]);
    folder.write("long", &[b'b'; 1000]);
    folder.done(&["put", "--date", DATE, "loan.img", "long", "/3"]);
    let before = Some(folder.read("loan.img"));
    Case { words: &["tidy", "loan.img"], before, status: 0, is_kept: true }.run();
}

#[cfg(has_links)]
#[test]
fn links_write() {
    changing(&["links", "write", "--date", DATE, "loan.img", "/A", "table"]).run();
}
