//! Calls that look at what is there and change it, of either version.

use zealfs_tests::calls::Call;
use zealfs_tests::desk::{pattern, DATE};
use zealfs_tests::plain::tree::{Node, Tree};

/// Paths that the calls on a sound image go to.
const PATHS: usize = 4;

/// Some entries from number `turn` on.
pub fn chosen(tree: &Tree, turn: usize) -> Vec<(Vec<u8>, Node)> {
    let entries = tree.paths();
    let some = (0..entries.len().min(PATHS)).map(|step| &entries[(turn + step) % entries.len()]);
    some.map(|(path, entry)| (path.clone(), entry.node.clone()))
        .collect()
}

/// Lists every entry and one past the last.
pub fn look_into(calls: &mut Vec<Call>, path: &[u8], entries: usize) {
    let numbers = 0..=entries as u64;
    calls.extend(numbers.map(|number| Call::List(path.to_vec(), number)));
}

/// Finds it, and looks at a directory's entries or a file's content.
pub fn look_at(calls: &mut Vec<Call>, path: &[u8], node: &Node, content: usize) {
    calls.push(Call::Find(path.to_vec()));
    match node {
        Node::Directory(directory) => look_into(calls, path, directory.entries.len()),
        Node::File(file) => {
            let size = file.content.len();
            let last_page = size / content * content;
            for (position, room) in [(0, size + 1), (last_page, 2), (size, 1), (size + 1, 1)] {
                let buffer = vec![0x55; room];
                calls.push(Call::Read(path.to_vec(), position as u64, buffer));
            }
        }
    }
}

/// Makes something below it, writes to it, also while it is locked, and removes
/// it; before a directory what was made in it. What does not suit is refused.
pub fn change(calls: &mut Vec<Call>, path: &[u8], node: &Node, content: usize) {
    let below = [path, b"/new".as_slice()].concat();
    calls.push(Call::MakeFile(below.clone(), DATE.to_vec()));
    calls.push(Call::MakeDirectory(below.clone(), DATE.to_vec()));
    match node {
        Node::File(file) => {
            let size = file.content.len() as u64;
            calls.push(Call::Write(path.to_vec(), size + 1, Vec::new()));
            calls.push(Call::Write(path.to_vec(), size, pattern(content)));
            calls.push(Call::Unlock(path.to_vec()));
            calls.push(Call::Write(path.to_vec(), 0, pattern(1)));
            calls.push(Call::Lock(path.to_vec()));
            calls.push(Call::Lock(path.to_vec()));
            calls.push(Call::Write(path.to_vec(), 0, pattern(1)));
            calls.push(Call::Find(path.to_vec()));
            calls.push(Call::RemoveFile(path.to_vec()));
            calls.push(Call::Unlock(path.to_vec()));
        }
        Node::Directory(_) => {
            calls.push(Call::Write(path.to_vec(), 0, pattern(1)));
            calls.push(Call::Lock(path.to_vec()));
            calls.push(Call::Lock(below.clone()));
            calls.push(Call::RemoveDirectory(path.to_vec()));
            calls.push(Call::RemoveFile(below.clone()));
            calls.push(Call::Unlock(below.clone()));
            calls.push(Call::RemoveFile(below));
        }
    }
    let (file, directory) = (path.to_vec(), path.to_vec());
    // The one that does not suit comes first.
    calls.extend(match node {
        Node::File(_) => [Call::RemoveDirectory(directory), Call::RemoveFile(file)],
        Node::Directory(_) => [Call::RemoveFile(file), Call::RemoveDirectory(directory)],
    });
}
