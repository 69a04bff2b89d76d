//! The page stores of a put: after all of them the image is that of put, and after fewer a repair brings back the old tree.
#![cfg(has_store)]

mod common;

use common::{example, Folder, DATE};
use std::fs;

#[test]
fn stores_of_a_put() {
    for path in ["/8", "/A/8"] {
        let folder = Folder::with_example();
        folder.write("a", &[b'a'; 300]);
        let told = folder.status(&["store", "--date", DATE, "loan.img", "a", path, "stores"], 0).out;
        assert_eq!(folder.read("loan.img"), example(), "the image stays as it is");
        let mut names: Vec<_> =
            fs::read_dir(folder.path("stores")).unwrap().map(|entry| entry.unwrap().file_name().into_string().unwrap()).collect();
        names.sort();
        assert_eq!(told.lines().count(), names.len());
        folder.write("put.img", &example());
        folder.done(&["put", "--date", DATE, "put.img", "a", path]);
        let old_tree = folder.run(&["tree", "loan.img"]).out;
        let mut image = example();
        for name in names {
            folder.write("pulled.img", &image);
            let _ = folder.run(&["repair", "pulled.img"]);
            folder.expect(&["tree", "pulled.img"], 0, &old_tree, "");
            let page: usize = name.trim_end_matches(".bin").rsplit('-').next().unwrap().parse().unwrap();
            image[256 * page..256 * page + 256].copy_from_slice(&folder.read(&format!("stores/{name}")));
        }
        assert_eq!(image, folder.read("put.img"));
    }
}

#[test]
fn what_is_refused() {
    let folder = Folder::with_example();
    folder.write("a", b"a");
    folder.write("long", &[0; 2000]);
    folder.status(&["store", "loan.img", "a", "/0042", "stores"], 2);
    folder.status(&["store", "loan.img", "long", "/8", "stores"], 2);
    folder.status(&["store", "--date", "2026-02-31", "loan.img", "a", "/8", "stores"], 2);
    folder.status(&["store", "loan.img", "nowhere", "/8", "stores"], 8);
    assert_eq!(folder.names(), ["a", "loan.img", "long"]);
    fs::create_dir(folder.path("stores")).unwrap();
    folder.status(&["store", "loan.img", "a", "/8", "stores"], 8);
}
