//! Runs a list of version 2's calls on two implementations and compares all they
//! answer and all that was lent to them; shrinks a list that shows a difference.

use super::calls::{Call, Calls, ROW};
use super::layout::{layout, CODE};
use super::plain::reader::judge;
use super::plain::{entries, Replay, PLAIN};
use crate::calls::{Answer, Call as Shared};
use crate::harness::{
    describe_answers, describe_bytes, describe_images, describe_lent, Difference, Guarded,
    GUARD_BYTE,
};
use crate::plain::tree::{Entry, Node, Tree};
use crate::shrink::{self, Trial};
use std::fmt::Write;

/// A starting image and a list of calls.
pub type Scenario = crate::harness::Scenario<Call>;

/// Rows that are looked at after a list.
const MOST_ROWS: usize = 100;

/// What a comparison tells besides a difference, for counting.
pub type Observer<'a> = &'a mut dyn FnMut(&Call, &Answer);

/// Performs the call with guards about the image and the lent buffer.
fn perform_guarded(
    call: &mut Call,
    calls: &dyn Calls,
    image: &mut Guarded,
    what: &mut String,
) -> Answer {
    let answer = match call {
        Call::Same(Shared::Read(path, position, buffer)) => {
            let mut guarded = Guarded::new(buffer, path.len());
            let answer = calls.read(image.bytes(), path, *position, guarded.bytes_mut());
            guarded.check(what);
            buffer.copy_from_slice(guarded.bytes());
            answer
        }
        Call::Entries(path, first, rows) => {
            let mut guarded = Guarded::new(rows, path.len());
            let answer = calls.entries(image.bytes(), path, *first, guarded.bytes_mut());
            guarded.check(what);
            rows.copy_from_slice(guarded.bytes());
            answer
        }
        _ => call.perform(calls, image.bytes_mut()),
    };
    image.check(what);
    answer
}

/// Runs the list on both implementations, and on the tree alone where the
/// starting image is sound; answers the first difference.
pub fn compare(
    scenario: &Scenario,
    expected: &dyn Calls,
    actual: &dyn Calls,
    observe: Observer,
) -> Option<Difference> {
    let mut replay = Replay::of(&scenario.image);
    let mut expected_image = scenario.image.clone();
    let mut actual_image = Guarded::new(&scenario.image, scenario.calls.len());
    for (step, call) in scenario.calls.iter().enumerate() {
        let mut expected_call = call.clone();
        let mut actual_call = call.clone();
        let wanted = expected_call.perform(expected, &mut expected_image);
        let mut what = String::new();
        let got = perform_guarded(&mut actual_call, actual, &mut actual_image, &mut what);
        describe_answers(&mut what, &wanted, &got);
        describe_arguments(&mut what, &expected_call, &actual_call);
        let page = 256 << page_code(&expected_image).min(2);
        describe_images(&mut what, page, &expected_image, actual_image.bytes());
        advance_replay(&mut replay, call, expected_image.len(), &wanted, &mut what);
        if !what.is_empty() {
            return Some(Difference { step, what });
        }
        observe(call, &got);
    }
    let mut what = String::new();
    if let Some(replay) = replay {
        describe_end(&mut what, &replay, actual, actual_image.bytes());
    }
    let step = scenario.calls.len();
    (!what.is_empty()).then_some(Difference { step, what })
}

fn describe_arguments(what: &mut String, wanted: &Call, got: &Call) {
    match (wanted, got) {
        (Call::Same(wanted), Call::Same(got)) => describe_lent(what, wanted, got),
        (Call::Entries(_, _, wanted), Call::Entries(_, _, got)) if wanted != got => {
            describe_bytes(what, "rows, each a page", ROW, wanted, got);
        }
        _ if wanted != got => *what += "the call was changed\n",
        _ => {}
    }
}

/// Steps the tree, which has to answer as the expected implementation did. A
/// granted format gives a tree where there was none.
fn advance_replay(
    replay: &mut Option<Replay>,
    call: &Call,
    length: usize,
    expected: &Answer,
    what: &mut String,
) {
    match (replay.as_mut(), call) {
        (Some(replay), _) => {
            let replayed = replay.step(&mut call.clone());
            if replayed != *expected {
                let _ = writeln!(what, "expected {expected}\nreplayed {replayed}");
            }
        }
        (None, Call::Format(code)) if expected.is_granted() => {
            *replay = Replay::formatted(length, *code).ok();
        }
        (None, _) => {}
    }
}

/// After the list the image means the replayed tree, and every count of free
/// pages is the tree's.
fn describe_end(what: &mut String, replay: &Replay, calls: &dyn Calls, image: &[u8]) {
    let tree = &replay.tree;
    let layout = match judge(image, layout) {
        Ok((read, layout)) if read == *tree => layout,
        _ => {
            *what += "after the list: the image does not mean the replayed tree\n";
            return;
        }
    };
    describe_rows(what, tree, calls, image);
    let free = tree.free();
    let zero_bits = (0..tree.pages).filter(|&page| !layout.is_allocated(image, page));
    let counts = [layout.free.of(image), zero_bits.count()];
    let verdict = calls.verdict(image);
    if counts != [free, free] || verdict != tree.verdict() {
        let _ = writeln!(
            what,
            "after the list: free {free}, counted {counts:?}, {verdict}"
        );
    }
}

/// The rows of the root and of the last directory are those of the tree.
fn describe_rows(what: &mut String, tree: &Tree, calls: &dyn Calls, image: &[u8]) {
    let paths = tree.paths();
    let is_directory = |entry: &Entry| matches!(entry.node, Node::Directory(_));
    let last = paths.iter().rfind(|(_, entry)| is_directory(entry));
    for path in [&b"/"[..]]
        .into_iter()
        .chain(last.map(|(path, _)| &path[..]))
    {
        let mut wanted = vec![GUARD_BYTE; MOST_ROWS * ROW];
        let mut got = wanted.clone();
        let told = calls.entries(image, path, 0, &mut got);
        if Ok(told) != entries(tree, path, 0, &mut wanted) || wanted != got {
            let path = shrink::text(path);
            let _ = writeln!(what, "after the list: the rows of {path} are others");
        }
    }
}

/// Two implementations of version 2.
struct Pair<'a> {
    expected: &'a dyn Calls,
    actual: &'a dyn Calls,
    /// The page code of the image that is shrunk.
    code: u64,
}

impl Trial for Pair<'_> {
    type Call = Call;

    fn compare(&self, scenario: &Scenario) -> Option<Difference> {
        compare(scenario, self.expected, self.actual, &mut |_, _| {})
    }

    fn simpler(&self, call: &Call) -> Vec<Call> {
        match call {
            Call::Format(code) => shrink::smaller(*code).map(Call::Format).collect(),
            Call::Entries(path, first, rows) => shrink::simpler_transfer(path, *first, rows)
                .map(|(path, first, rows)| Call::Entries(path, first, rows))
                .collect(),
            Call::Same(call) => shrink::simpler(call).into_iter().map(Call::Same).collect(),
        }
    }

    fn fresh(&self, length: usize) -> Vec<Vec<u8>> {
        let formatted = |(length, code)| {
            let mut image = vec![0; length];
            PLAIN.format(&mut image, code).is_granted().then_some(image)
        };
        let sizes = [
            (2048, 0),
            (4096, 0),
            (8192, 1),
            (69_632, 1),
            (length, self.code),
        ];
        sizes.into_iter().filter_map(formatted).collect()
    }

    fn call_text(&self, call: &Call) -> String {
        match call {
            Call::Format(code) => format!("format with page code {code}"),
            Call::Entries(path, first, rows) => {
                let (path, length) = (shrink::text(path), rows.len());
                let rows = shrink::hex(rows);
                format!("entries {path} from {first} into {length}: {rows}")
            }
            Call::Same(call) => shrink::call_text(call),
        }
    }
}

fn pair<'a>(scenario: &Scenario, expected: &'a dyn Calls, actual: &'a dyn Calls) -> Pair<'a> {
    Pair {
        expected,
        actual,
        code: page_code(&scenario.image),
    }
}

/// What stands where an image has its page code; 0 if it is too short.
fn page_code(image: &[u8]) -> u64 {
    match image.len() > CODE.at {
        true => CODE.of(image) as u64,
        false => 0,
    }
}

/// A list, as short as is found, on which the two implementations differ.
pub fn shrink(scenario: &Scenario, expected: &dyn Calls, actual: &dyn Calls) -> Scenario {
    shrink::shrink_by(&pair(scenario, expected, actual), scenario)
}

/// The whole report of a difference.
pub fn report(
    origin: &str,
    scenario: &Scenario,
    expected: &dyn Calls,
    actual: &dyn Calls,
) -> String {
    shrink::report_by(&pair(scenario, expected, actual), origin, scenario)
}
