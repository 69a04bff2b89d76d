//! Runs a list of calls on two implementations and compares all they answer
//! and all that was lent to them.

use crate::calls::{Answer, Call, Calls, OWNERS};
use crate::plain::reader::{is_allocated, judge};
use crate::plain::{Replay, PAGE};
use std::fmt::Write;

/// A starting image and a list of calls, of version 1 unless said otherwise.
#[derive(Clone, Debug, PartialEq, Eq)]
pub struct Scenario<C = Call> {
    pub image: Vec<u8>,
    pub calls: Vec<C>,
}

/// Tells where a list comes from if an implementation panics in it.
pub struct Origin(pub String);

impl Drop for Origin {
    fn drop(&mut self) {
        if std::thread::panicking() {
            eprintln!("in {}", self.0);
        }
    }
}

/// Where two implementations part.
#[derive(Clone, Debug, PartialEq, Eq)]
pub struct Difference {
    /// The call after which it shows.
    pub step: usize,
    pub what: String,
}

/// Bytes or numbers between two stretches that nobody may change. The first
/// byte lies at any place of a word.
pub(crate) struct Guarded<T = u8> {
    all: Vec<T>,
    from: usize,
    length: usize,
}

const GUARD: usize = 64;
pub(crate) const GUARD_BYTE: u8 = 0xC3;

impl<T: Copy + PartialEq + From<u8>> Guarded<T> {
    pub(crate) fn new(items: &[T], shift: usize) -> Guarded<T> {
        let from = GUARD + shift % 8;
        let length = items.len();
        let mut all = vec![T::from(GUARD_BYTE); from + length + GUARD];
        all[from..from + length].copy_from_slice(items);
        Guarded { all, from, length }
    }

    pub(crate) fn bytes(&self) -> &[T] {
        &self.all[self.from..self.from + self.length]
    }

    pub(crate) fn bytes_mut(&mut self) -> &mut [T] {
        &mut self.all[self.from..self.from + self.length]
    }

    pub(crate) fn check(&self, what: &mut String) {
        let (before, rest) = self.all.split_at(self.from);
        let mut around = before.iter().chain(&rest[self.length..]);
        if around.any(|&item| item != T::from(GUARD_BYTE)) {
            *what += "what lies outside the image, the buffer or the list was written\n";
        }
    }
}

/// Performs the call with guards about the image and the lent buffer.
fn perform_guarded(
    call: &mut Call,
    calls: &dyn Calls,
    image: &mut Guarded,
    what: &mut String,
) -> Answer {
    let answer = match call {
        Call::Read(path, position, buffer) => {
            let mut guarded = Guarded::new(buffer, path.len());
            let answer = calls.read(image.bytes(), path, *position, guarded.bytes_mut());
            guarded.check(what);
            buffer.copy_from_slice(guarded.bytes());
            answer
        }
        Call::Store(path, date, content, number, page) => {
            let mut guarded = Guarded::new(page, path.len());
            let lent = guarded.bytes_mut();
            let answer = calls.store(image.bytes(), path, date, content, *number, lent);
            guarded.check(what);
            page.copy_from_slice(guarded.bytes());
            answer
        }
        Call::LinksRead(directory, numbers) => {
            let mut guarded = Guarded::new(numbers, directory.len());
            let answer = calls.links_read(image.bytes(), directory, guarded.bytes_mut());
            guarded.check(what);
            numbers.copy_from_slice(guarded.bytes());
            answer
        }
        _ => call.perform(calls, image.bytes_mut()),
    };
    image.check(what);
    answer
}

/// What a comparison tells besides a difference, for counting.
pub type Observer<'a> = &'a mut dyn FnMut(&Call, &Answer);

/// Runs the list on both implementations, and on the tree alone where the
/// starting image is sound; answers the first difference. The second judges are
/// compared on the image before the list and after it.
pub fn compare(
    scenario: &Scenario,
    expected: &dyn Calls,
    actual: &dyn Calls,
    observe: Observer,
) -> Option<Difference> {
    let mut replay = Replay::of(&scenario.image);
    let mut expected_image = scenario.image.clone();
    let mut actual_image = Guarded::new(&scenario.image, scenario.calls.len());
    let mut what = String::new();
    describe_audits(&mut what, expected, actual, &actual_image);
    describe_tidies(&mut what, expected, actual, &actual_image);
    if !what.is_empty() {
        return Some(Difference { step: 0, what });
    }
    for (step, call) in scenario.calls.iter().enumerate() {
        let mut expected_call = call.clone();
        let mut actual_call = call.clone();
        let wanted = expected_call.perform(expected, &mut expected_image);
        let mut what = String::new();
        let got = perform_guarded(&mut actual_call, actual, &mut actual_image, &mut what);
        describe_answers(&mut what, &wanted, &got);
        describe_lent(&mut what, &expected_call, &actual_call);
        describe_images(&mut what, PAGE, &expected_image, actual_image.bytes());
        advance_replay(&mut replay, call, &expected_image, &wanted, &mut what);
        if !what.is_empty() {
            return Some(Difference { step, what });
        }
        observe(call, &got);
    }
    if actual_image.bytes() != scenario.image {
        describe_audits(&mut what, expected, actual, &actual_image);
        describe_tidies(&mut what, expected, actual, &actual_image);
    }
    if let Some(replay) = replay {
        describe_end(&mut what, &replay, actual, actual_image.bytes());
    }
    let step = scenario.calls.len();
    (!what.is_empty()).then_some(Difference { step, what })
}

/// Steps the tree, which has to answer as the expected implementation did. A
/// granted format gives a tree where there was none, and after a granted repair
/// the replay starts afresh from the image.
fn advance_replay(
    replay: &mut Option<Replay>,
    call: &Call,
    image: &[u8],
    expected: &Answer,
    what: &mut String,
) {
    match replay {
        Some(replay) => {
            let replayed = replay.step(&mut call.clone());
            // Of a granted store the tree knows no page.
            let decided = match call {
                Call::Store(..) if expected.is_granted() => Answer::granted(),
                _ => expected.clone(),
            };
            if replayed != decided {
                let _ = writeln!(what, "expected {expected}\nreplayed {replayed}");
            }
        }
        None if *call == Call::Format && expected.is_granted() => {
            *replay = Some(Replay::formatted(image.len()));
        }
        None if *call == Call::Repair && expected.is_granted() => {
            *replay = Replay::of(image);
            if replay.is_none() {
                *what += "a repaired image is not sound\n";
            }
        }
        None => {}
    }
}

/// After the list the image means the replayed tree, and every count of free
/// pages is the tree's.
fn describe_end(what: &mut String, replay: &Replay, calls: &dyn Calls, image: &[u8]) {
    if judge(image).as_ref() != Ok(&replay.tree) {
        *what += "after the list: the image does not mean the replayed tree\n";
        return;
    }
    let free = replay.tree.free();
    let zero_bits = (0..replay.tree.pages).filter(|&page| !is_allocated(image, page));
    let verdict = calls.verdict(image);
    let counts = [usize::from(image[3]), zero_bits.count()];
    if counts != [free, free] || verdict != replay.tree.verdict() {
        let _ = writeln!(
            what,
            "after the list: free {free}, counted {counts:?}, {verdict}"
        );
    }
}

pub(crate) fn describe_answers(what: &mut String, wanted: &Answer, got: &Answer) {
    if wanted != got {
        let _ = writeln!(what, "expected {wanted}\n     got {got}");
    }
}

/// What the second judges say of an image, which they must leave as it is.
fn describe_audits(what: &mut String, expected: &dyn Calls, actual: &dyn Calls, image: &Guarded) {
    let wanted = expected.audit(image.bytes());
    let got = actual.audit(image.bytes());
    if wanted == got {
        return;
    }
    let (sound, says) = (wanted.sound, got.sound);
    let _ = writeln!(what, "audit: expected {sound}, got {says}");
    let different = (0..OWNERS).find(|&page| wanted.owners[page] != got.owners[page]);
    if let Some(page) = different {
        let (owner, named) = (wanted.owners[page], got.owners[page]);
        let _ = writeln!(what, "  page {page}: expected owner {owner}, got {named}");
    }
}

/// What the helpers propose for an image, and what tidy makes of that and of the
/// pages as they are.
fn describe_tidies(what: &mut String, expected: &dyn Calls, actual: &dyn Calls, image: &Guarded) {
    let image = image.bytes();
    let pages = image.len() / 256;
    let mut places = vec![9; pages];
    let mut proposed = places.clone();
    let wanted = expected.propose(image, &mut places);
    let got = actual.propose(image, &mut proposed);
    if wanted != got || places != proposed {
        let _ = writeln!(what, "propose: expected {wanted}, got {got}");
    }
    let as_they_are: Vec<u8> = (0..pages).map(|page| page as u8).collect();
    for places in [places, as_they_are] {
        let mut target = vec![9; image.len()];
        let mut written = target.clone();
        let wanted = expected.tidy(image, &places, &mut target);
        let got = actual.tidy(image, &places, &mut written);
        if wanted != got || target != written {
            let _ = writeln!(what, "tidy: expected {wanted}, got {got}");
        }
    }
}

pub(crate) fn describe_lent(what: &mut String, wanted: &Call, got: &Call) {
    if wanted == got {
        return;
    }
    match (wanted, got) {
        (Call::Read(_, _, wanted), Call::Read(_, _, got)) if wanted != got => {
            describe_bytes(what, "buffer", PAGE, wanted, got);
        }
        (Call::Store(.., wanted), Call::Store(.., got)) if wanted != got => {
            describe_bytes(what, "page", PAGE, wanted, got);
        }
        (Call::LinksRead(_, wanted), Call::LinksRead(_, got)) if wanted != got => {
            describe_numbers(what, wanted, got);
        }
        _ => *what += "the path, date, bytes or numbers of the call were changed\n",
    }
}

/// The first bytes of an image that differ, by its pages.
pub(crate) fn describe_images(what: &mut String, page: usize, wanted: &[u8], got: &[u8]) {
    if wanted != got {
        describe_bytes(what, "image", page, wanted, got);
    }
}

/// The first numbers of a list that differ.
fn describe_numbers(what: &mut String, wanted: &[u64], got: &[u64]) {
    let pairs = wanted.iter().zip(got).enumerate();
    let different = pairs.filter(|(_, (wanted, got))| wanted != got);
    *what += "list:\n";
    for (at, (wanted, got)) in different.take(12) {
        let (row, part) = (at / 3, at % 3);
        let _ = writeln!(
            what,
            "  {at} (row {row}, number {part}): expected {wanted}, got {got}"
        );
    }
}

/// The first bytes that differ.
pub(crate) fn describe_bytes(
    what: &mut String,
    name: &str,
    page: usize,
    wanted: &[u8],
    got: &[u8],
) {
    let different: Vec<usize> = (0..wanted.len())
        .filter(|&at| wanted[at] != got[at])
        .collect();
    let _ = writeln!(what, "{name}: {} bytes differ", different.len());
    for &at in different.iter().take(12) {
        let (page, place) = (at / page, at % page);
        let (wanted, got) = (wanted[at], got[at]);
        let _ = writeln!(
            what,
            "  {at} (page {page}, byte {place}): expected {wanted:02X}, got {got:02X}"
        );
    }
}
