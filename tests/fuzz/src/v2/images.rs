//! Inputs that are images of version 2.
//!
//! ```text
//! byte 0   240 and above: the image follows byte 1 as it is;
//!          else the number of a starting image, and edits follow byte 1
//! byte 1   bit 0: bitmap and count are made to follow the pages that the
//!          entries have; bits 1 to 7: with which path the calls begin
//! edit     5 bytes: kind, a, b, value, value; see `edit`
//! ```
//!
//! The calls are not part of the input. On a sound image they look at what there
//! is and then change it; on any other all have to be refused, until a format.

use super::pool;
use crate::images::WHOLE;
use crate::input::Input;
use crate::looks::{change, chosen, look_at, look_into};
use zealfs_tests::calls::Call as Shared;
use zealfs_tests::desk::{pattern, DATE};
use zealfs_tests::plain::tree::{Node, Tree};
use zealfs_tests::v2::calls::{Call, ROW};
use zealfs_tests::v2::damage::{mend_bitmap, Survey};
use zealfs_tests::v2::harness::Scenario;
use zealfs_tests::v2::layout::{check_length, layout, Layout, BITMAP_AT, CODE, ENTRY};
use zealfs_tests::v2::plain::Replay;

/// Edits that an input may ask for.
const EDITS: usize = 40;

/// The layout of an image whose length and code are good.
fn layout_of(image: &[u8]) -> Option<Layout> {
    check_length(image.len()).ok()?;
    layout(image.len(), CODE.of(image) as u64).ok()
}

pub fn decode(bytes: &[u8]) -> Scenario {
    let mut input = Input::new(bytes);
    let (first, second) = (input.byte(), input.byte());
    let mut image = match first {
        WHOLE.. => input.rest().to_vec(),
        _ => edited(pool::image(first.into()), &mut input),
    };
    if let Some(layout) = layout_of(&image).filter(|_| second & 1 != 0) {
        mend_bitmap(&mut image, layout);
    }
    let calls = match Replay::of(&image) {
        Some(replay) => calls_on_sound(&replay.tree, usize::from(second >> 1)),
        None => calls_on_unsound(image.len()),
    };
    Scenario { image, calls }
}

fn edited(mut image: Vec<u8>, input: &mut Input) -> Vec<u8> {
    for _ in 0..EDITS {
        if input.is_used_up() || image.len() < 2048 {
            break;
        }
        match layout_of(&image) {
            Some(layout) => edit(&mut image, layout, input),
            None => edit_any(&mut image, input),
        }
    }
    image
}

/// Any byte.
fn edit_any(image: &mut [u8], input: &mut Input) {
    let at = input.short() % image.len();
    image[at] = input.byte();
}

/// One edit of an image of a good length and code.
fn edit(image: &mut Vec<u8>, layout: Layout, input: &mut Input) {
    let [kind, a, b, low, high] = [(); 5].map(|()| input.byte());
    let far = usize::from(a) + 256 * usize::from(b);
    let value = usize::from(low) + 256 * usize::from(high);
    match kind % 10 {
        // Any byte of the pages set aside, of the header, or of all.
        0 => image[far % (layout.aside * layout.page)] = low,
        1 => image[usize::from(a) % 8] = low,
        2 => {
            let at = (far * ENTRY + usize::from(high)) % image.len();
            image[at] = low;
        }
        // Byte b of entry a, counted over all that the directories have; a bit of
        // the same; its start page; its size.
        3 | 4 => {
            let at = entry(image, layout, a) + usize::from(b) % ENTRY;
            match kind % 10 {
                3 => image[at] = low,
                _ => image[at] ^= 1 << (low % 8),
            }
        }
        5 => {
            let at = entry(image, layout, a);
            let field = if b & 1 == 0 {
                layout.start
            } else {
                layout.size
            };
            field.put(&mut image[at..at + ENTRY], value);
        }
        // The link of a page.
        6 => layout.link(far % layout.pages).put(image, value),
        // A byte of the bitmap, the count following or not.
        7 => {
            let at = BITMAP_AT + usize::from(a) % (layout.pages / 8);
            let was_free = image[at].count_zeros() as usize;
            image[at] = low;
            if b & 1 == 0 {
                let free = layout.free.of(image) + low.count_zeros() as usize;
                layout.free.put(image, free.wrapping_sub(was_free));
            }
        }
        // Entry a becomes what entry b is.
        8 => {
            let (to, from) = (entry(image, layout, a), entry(image, layout, b));
            image.copy_within(from..from + ENTRY, to);
        }
        // Another length, mostly one that is allowed.
        _ => match low {
            0..=63 => image.resize(far, 0),
            _ => image.resize(2048 * (usize::from(a) % 40), 0),
        },
    }
}

/// Where entry `number` is, over all pages of directories.
fn entry(image: &[u8], layout: Layout, number: u8) -> usize {
    let pages = Survey::of(image, layout).directories.concat();
    let places: Vec<usize> = pages
        .iter()
        .flat_map(|&page| layout.entry_places(page))
        .collect();
    places[usize::from(number) % places.len()]
}

fn same(calls: Vec<Shared>) -> impl Iterator<Item = Call> {
    calls.into_iter().map(Call::Same)
}

fn calls_on_unsound(length: usize) -> Vec<Call> {
    let path = || b"/A".to_vec();
    let mut calls: Vec<Call> = same(vec![
        Shared::Verdict,
        Shared::Find(b"/".to_vec()),
        Shared::List(b"/".to_vec(), 0),
        Shared::Read(path(), 0, vec![0x55; 300]),
        Shared::MakeFile(path(), DATE.to_vec()),
        Shared::MakeDirectory(path(), DATE.to_vec()),
        Shared::Write(path(), 0, pattern(300)),
        Shared::RemoveFile(path()),
        Shared::RemoveDirectory(path()),
        Shared::Lock(path()),
        Shared::Unlock(path()),
        // What a call takes for no path it takes so only on a sound image.
        Shared::Find(b"A".to_vec()),
    ])
    .collect();
    calls.push(Call::Entries(b"/".to_vec(), 0, vec![0x55; 3 * ROW]));
    calls.push(Call::Entries(Vec::new(), u64::MAX, vec![0x55; ROW]));
    let least = match length {
        0..=65_536 => 0,
        65_537..=262_144 => 1,
        _ => 2,
    };
    calls.extend([3, least + 1, least].map(Call::Format));
    calls.push(Call::Same(Shared::MakeDirectory(path(), DATE.to_vec())));
    calls.push(Call::Same(Shared::Verdict));
    calls
}

/// Looks at the root and some entries from number `turn` on, then changes them.
fn calls_on_sound(tree: &Tree, turn: usize) -> Vec<Call> {
    let chosen = chosen(tree, turn);
    let content = tree.shape.content;
    let mut looks = vec![Shared::Verdict, Shared::Find(b"/".to_vec())];
    look_into(&mut looks, b"/", tree.root.entries.len().min(40));
    for (path, node) in &chosen {
        look_at(&mut looks, path, node, content);
    }
    let mut changes = Vec::new();
    for (path, node) in &chosen {
        change(&mut changes, path, node, content);
    }
    changes.extend([
        Shared::MakeFile(b"/0042".to_vec(), DATE.to_vec()),
        Shared::MakeDirectory(b"/042".to_vec(), DATE.to_vec()),
        Shared::Write(b"/0042".to_vec(), 0, pattern(content + 1)),
        Shared::Verdict,
    ]);
    let directories = chosen.iter().filter_map(|(path, node)| match node {
        Node::Directory(directory) => Some((path.as_slice(), directory.entries.len())),
        Node::File(_) => None,
    });
    let root = (&b"/"[..], tree.root.entries.len());
    let rows = directories.chain([root]).flat_map(|(path, entries)| {
        let entries = entries as u64;
        let from = [0, entries / 2, entries - 1, entries, entries + 1];
        from.map(|first| Call::Entries(path.to_vec(), first, vec![0x55; 9 * ROW + 7]))
    });
    let rows: Vec<Call> = rows.collect();
    same(looks).chain(rows).chain(same(changes)).collect()
}
