//! Files moved together by the tool.
#![cfg(has_tidy)]

mod common;

use common::{damaged, Folder, DATE};

#[test]
fn files_are_moved_together() {
    let folder = Folder::new();
    folder.done(&["format", "loan.img", "8k"]);
    folder.write("short", b"a");
    folder.write("long", &[b'b'; 1000]);
    folder.done(&["put", "--date", DATE, "loan.img", "short", "/1"]);
    folder.done(&["mkdir", "--date", DATE, "loan.img", "/A"]);
    folder.done(&["put", "--date", DATE, "loan.img", "short", "/A/2"]);
    folder.done(&["rm", "loan.img", "/1"]);
    folder.done(&["put", "--date", DATE, "loan.img", "long", "/3"]);
    let (before, tree) = (folder.read("loan.img"), folder.run(&["tree", "loan.img"]).out);
    assert!(folder.run(&["map", "loan.img"]).out.matches("/3").count() > 1, "the file is scattered");
    assert!(folder.status(&["tidy", "-n", "loan.img"], 0).out.contains("pages would move"));
    assert_eq!(folder.read("loan.img"), before);
    let told = folder.status(&["tidy", "loan.img"], 0).out;
    assert!(told.ends_with("the image as it was is kept as loan.img~\n"), "{told}");
    assert_eq!(folder.read("loan.img~"), before);
    folder.status(&["check", "loan.img"], 0);
    folder.expect(&["tree", "loan.img"], 0, &tree, "");
    folder.expect(&["cat", "loan.img", "/3"], 0, &"b".repeat(1000), "");
    assert_eq!(folder.run(&["map", "loan.img"]).out.matches("/3").count(), 1, "it is together now");
}

#[test]
fn damaged_images_are_left_alone() {
    let folder = Folder::new();
    folder.write("x.img", &damaged(18));
    folder.status(&["tidy", "x.img"], 4);
    folder.status(&["tidy", "-n", "x.img"], 4);
    folder.status(&["tidy", "nowhere.img"], 8);
    assert_eq!(folder.read("x.img"), damaged(18));
    assert_eq!(folder.names(), ["x.img"]);
}
