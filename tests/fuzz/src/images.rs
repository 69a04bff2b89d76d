//! Inputs that are images.
//!
//! ```text
//! byte 0   240 and above: the image follows byte 1 as it is;
//!          else the number of a starting image, and edits follow byte 1
//! byte 1   bit 0: bitmap and byte 3 are made to follow the pages that the
//!          entries have; bits 1 to 7: with which path the calls begin
//! edit     4 bytes: kind, a, b, value; see `edit`
//! ```
//!
//! The calls are not part of the input. On a sound image they look at what
//! there is and then change it; on any other all have to be refused. Then it is
//! repaired: where that is granted the calls go on as on the sound image that it
//! is then, and where not a format follows, which is granted where the length is
//! allowed.

use crate::input::Input;
use crate::looks::{change, chosen, look_at, look_into};
use crate::pool;
use zealfs_tests::calls::Call;
use zealfs_tests::damage::{mend_bitmap, Survey};
use zealfs_tests::desk::{pattern, DATE};
use zealfs_tests::harness::Scenario;
use zealfs_tests::plain::links::path_in;
use zealfs_tests::plain::reader::{judge, tree_and_owned};
use zealfs_tests::plain::tree::{Node, Tree};
use zealfs_tests::plain::{
    pages_of_image, BITMAP_AT, CONTENT, DIRECTORY_ENTRIES, ENTRY, PAGE, ROOT_ENTRIES_AT,
};

/// From here on byte 0 says that the image itself follows.
pub const WHOLE: u8 = 240;

/// Edits that an input may ask for.
const EDITS: usize = 40;

pub fn decode(bytes: &[u8]) -> Scenario {
    let mut input = Input::new(bytes);
    let first = input.byte();
    let second = input.byte();
    let mut image = match first {
        WHOLE.. => input.rest().to_vec(),
        _ => edited(pool::image(first.into()), &mut input),
    };
    if second & 1 != 0 && pages_of_image(image.len()).is_ok() {
        mend_bitmap(&mut image);
    }
    let calls = match judge(&image) {
        Ok(tree) => calls_on_sound(&tree, usize::from(second >> 1)),
        Err(_) => calls_on_unsound(&image, usize::from(second >> 1)),
    };
    Scenario { image, calls }
}

fn edited(mut image: Vec<u8>, input: &mut Input) -> Vec<u8> {
    for _ in 0..EDITS {
        if input.is_used_up() || image.len() < 2048 {
            break;
        }
        edit(&mut image, input);
    }
    image
}

/// One edit of an image of at least 2048 bytes.
fn edit(image: &mut Vec<u8>, input: &mut Input) {
    let [kind, a, b, value] = [(); 4].map(|()| input.byte());
    let far = usize::from(a) + 256 * usize::from(b);
    match kind % 8 {
        // Any byte.
        0 => {
            let at = far % image.len();
            image[at] = value;
        }
        // Byte b of entry a, counted over all that the directories have.
        1 | 2 => {
            let at = entry(image, a) + usize::from(b) % ENTRY;
            image[at] = value;
        }
        // A bit of the same.
        3 => {
            let at = entry(image, a) + usize::from(b) % ENTRY;
            image[at] ^= 1 << (value % 8);
        }
        // The link of page a.
        4 => {
            let pages = image.len() / PAGE;
            image[usize::from(a) % pages * PAGE] = value;
        }
        // A byte of the bitmap, byte 3 following or not.
        5 => {
            let at = BITMAP_AT + usize::from(a) % 32;
            let freed = value.count_zeros() as u8;
            let was_free = image[at].count_zeros() as u8;
            image[at] = value;
            if b & 1 == 0 {
                image[3] = image[3].wrapping_add(freed).wrapping_sub(was_free);
            }
        }
        // Entry a becomes what entry b is.
        6 => {
            let (to, from) = (entry(image, a), entry(image, b));
            image.copy_within(from..from + ENTRY, to);
        }
        // Another length, or one that byte 2 tells.
        _ => match value {
            0..=63 => image.resize(far, 0),
            64..=127 => image.resize(8 * PAGE * (usize::from(a) % 34), 0),
            _ => {
                image.resize(8 * PAGE * (1 + usize::from(a) % 32), 0);
                image[2] = (image.len() / (8 * PAGE)) as u8;
            }
        },
    }
}

/// Where entry `number` is: the root's, then those of each directory.
fn entry(image: &[u8], number: u8) -> usize {
    let in_root = (ROOT_ENTRIES_AT..PAGE).step_by(ENTRY);
    let below = Survey::of(image).directory_pages.into_iter();
    let below = below.flat_map(|page| {
        let of_page = 0..DIRECTORY_ENTRIES;
        of_page.map(move |number| page * PAGE + number * ENTRY)
    });
    let places: Vec<usize> = in_root.chain(below).collect();
    places[usize::from(number) % places.len()]
}

fn calls_on_unsound(image: &[u8], turn: usize) -> Vec<Call> {
    let path = || b"/A".to_vec();
    let mut calls = vec![
        Call::Verdict,
        Call::Find(b"/".to_vec()),
        Call::List(b"/".to_vec(), 0),
        Call::Read(path(), 0, vec![0x55; 300]),
        Call::MakeFile(path(), DATE.to_vec()),
        Call::MakeDirectory(path(), DATE.to_vec()),
        Call::Write(path(), 0, pattern(300)),
        Call::RemoveFile(path()),
        Call::RemoveDirectory(path()),
        Call::Lock(path()),
        Call::Unlock(path()),
        Call::Store(path(), DATE.to_vec(), pattern(300), 0, vec![0x55; PAGE]),
        Call::Store(path(), Vec::new(), pattern(300), 0, vec![0x55; PAGE - 1]),
        Call::LinksRead(b"/".to_vec(), vec![0x55; 9]),
        Call::LinksWrite(b"/".to_vec(), Vec::new(), vec![0; 3]),
        Call::LinksFind(b"/".to_vec(), 1, 7),
        Call::LinksCheck(Vec::new()),
        // What a call takes for no path it takes so only on a sound image.
        Call::Find(b"A".to_vec()),
        Call::Repair,
        Call::Verdict,
    ];
    match tree_and_owned(image) {
        Ok((tree, _)) => {
            calls.push(Call::Repair);
            calls.extend(calls_on_sound(&tree, turn));
        }
        Err(_) => calls.extend([
            Call::Format,
            Call::MakeDirectory(path(), DATE.to_vec()),
            Call::Verdict,
        ]),
    }
    calls
}

/// Looks at the root and some entries from number `turn` on, then changes them.
fn calls_on_sound(tree: &Tree, turn: usize) -> Vec<Call> {
    let chosen = chosen(tree, turn);
    let mut calls = vec![Call::Verdict, Call::Repair, Call::Find(b"/".to_vec())];
    look_into(&mut calls, b"/", DIRECTORY_ENTRIES);
    for (path, node) in &chosen {
        look_at(&mut calls, path, node, CONTENT);
        if let Node::Directory(_) = node {
            links(&mut calls, path);
        }
    }
    links(&mut calls, b"/");
    for (path, node) in &chosen {
        stores(&mut calls, path);
        change(&mut calls, path, node, CONTENT);
    }
    calls.extend([
        Call::MakeFile(b"/0042".to_vec(), DATE.to_vec()),
        Call::MakeDirectory(b"/042".to_vec(), DATE.to_vec()),
        Call::Write(b"/0042".to_vec(), 0, pattern(CONTENT + 1)),
        Call::Verdict,
    ]);
    calls
}

/// Asks for the stores of a new file below the path, and for two more.
fn stores(calls: &mut Vec<Call>, path: &[u8]) {
    let below = [path, b"/new".as_slice()].concat();
    for number in 0..5 {
        let content = pattern(CONTENT + 1);
        let page = vec![0x55; PAGE];
        calls.push(Call::Store(
            below.clone(),
            DATE.to_vec(),
            content,
            number,
            page,
        ));
    }
}

/// Looks at a directory's list as it is, which an edit may have broken, writes
/// another, looks again, and removes it.
fn links(calls: &mut Vec<Call>, path: &[u8]) {
    let look = [
        Call::LinksRead(path.to_vec(), vec![0x55; 8]),
        Call::LinksRead(path.to_vec(), vec![0x55; 9]),
        Call::LinksFind(path.to_vec(), 4, 42),
        Call::LinksCheck(path.to_vec()),
    ];
    let (date, rows) = (DATE.to_vec(), vec![2, 42, 300, 4, 42, 1 << 31, 16, 7, 0]);
    calls.extend(look.clone());
    calls.push(Call::LinksWrite(path.to_vec(), date.clone(), rows));
    calls.extend(look);
    let (equal, broken) = (vec![1, 7, 0, 1, 7, 0], vec![1, 10, 0]);
    calls.push(Call::LinksWrite(path.to_vec(), date.clone(), equal));
    calls.push(Call::LinksWrite(path.to_vec(), date, broken));
    // So that the directory can be emptied.
    calls.push(Call::RemoveFile(path_in(path)));
}
