//! The command `shelf`, and the keys of a shelf.
mod common;

use common::shortcuts::{z, Shortcuts};
use common::{text, SAMPLE};

const Z_KEY: &str = "000000000000000000000000000000000000000000";

/// A folder with a shelf of the sample and the shortest shortcut, and its old form.
fn with_shelf(name: &str) -> Shortcuts {
    let s = Shortcuts::new(name);
    s.run(&["shelf", "build", "-o", "two.shelf", "a.lnk", "z.lnk"]).is(0, "two.shelf: 559 bytes\n", "");
    s
}

#[test]
fn a_shelf_is_built_listed_and_taken_apart() {
    let s = with_shelf("shelf");
    s.run(&["shelf", "list", "two.shelf"]).is(0, "ok 2\n0 20 459\n1 479 80\n", "");
    s.run(&["shelf", "check", "two.shelf"]).is(0, "two.shelf: ok 2\n", "");
    let said = s.run(&["shelf", "fetch", "0", "two.shelf"]);
    assert!(said.out == SAMPLE && said.err.is_empty());
    s.run(&["shelf", "fetch", "1", "--one", "two.shelf", "-o", "one.lnk"]).is(0, "one.lnk: 80 bytes\n", "");
    assert_eq!(s.get("one.lnk"), z());
    s.run(&["shelf", "build", "-o", "none.shelf"]).is(0, "none.shelf: 4 bytes\n", "");
    s.run(&["shelf", "list", "none.shelf"]).is(0, "ok 0\n", "");
}

#[test]
fn the_old_form_goes_there_and_back() {
    let s = with_shelf("shelf_old");
    s.run(&["shelf", "to-old", "-o", "two.old", "two.shelf"]).is(0, "two.old: 547 bytes\n", "");
    assert_eq!(s.get("two.old"), [&459_u32.to_le_bytes()[..], SAMPLE, &80_u32.to_le_bytes(), &z()].concat());
    s.run(&["shelf", "from-old", "two.old", "-o", "again.shelf"]).is(0, "again.shelf: 559 bytes\n", "");
    assert_eq!(s.get("again.shelf"), s.get("two.shelf"));
    let cut = s.get("two.old")[..546].to_vec();
    s.put("cut.old", &cut);
    let why = "refused 17 SHELF at 0: count, table, lengths or number do not fit a shelf\n";
    s.run(&["shelf", "from-old", "cut.old"]).is(1, "", &format!("herringnet: cut.old: {}", why));
}

#[test]
fn a_bad_entry_is_told_with_its_fault() {
    let s = with_shelf("shelf_bad");
    let mut bad = s.get("two.shelf");
    bad[479 + 23] = 0x08;
    s.put("bad.shelf", &bad);
    let why = "refused 18 ENTRY at 1: the entry of this number is refused: refused 4 HEAD at 20: header (at 0), \
               LinkFlags is 0x8000000, where bit 27 has to be clear\n";
    s.run(&["shelf", "check", "two.shelf", "bad.shelf"]).is(1, &format!("two.shelf: ok 2\nbad.shelf: {}", why), "");
    s.run(&["shelf", "list", "bad.shelf"]).is(1, "refused 18 1\n", "");
    s.run(&["shelf", "fetch", "0", "bad.shelf"]).is(1, "", &format!("herringnet: bad.shelf: {}", why));
    assert!(s.run(&["shelf", "fetch", "0", "--one", "bad.shelf"]).out == SAMPLE);
    s.run(&["key", "--shelf", "bad.shelf"]).is(1, "", &format!("herringnet: bad.shelf: {}", why));
    s.run(&["shelf", "to-old", "-o", "bad.old", "two.shelf"]).is(0, "bad.old: 547 bytes\n", "");
    let mut old = s.get("bad.old");
    old[467 + 23] = 0x08;
    s.put("bad.old", &old);
    s.run(&["shelf", "from-old", "bad.old"]).is(1, "", &format!("herringnet: bad.old: {}", why));
    let said = s.run(&["shelf", "build", "-o", "x.shelf", "a.lnk", "cut.lnk"]);
    assert!(said.err.starts_with("herringnet: refused 18 ENTRY at 1: the entry of this number is refused; cut.lnk: "));
    assert!(!s.path("x.shelf").exists() && said.out.is_empty());
}

#[test]
fn the_keys_of_a_shelf() {
    let s = with_shelf("shelf_key");
    let alone = s.run(&["key", "a.lnk"]);
    let sample = text(&alone.out).split(' ').next().unwrap();
    let lines = format!("{} 0 two.shelf\n{} 1 two.shelf\n", sample, Z_KEY);
    s.run(&["key", "--shelf", "two.shelf"]).is(0, &lines, "");
    let json = format!("{{\"file\":\"two.shelf\",\"status\":\"ok\",\"keys\":[\"{}\",\"{}\"]}}\n", sample, Z_KEY);
    s.run(&["key", "--shelf", "--json", "two.shelf"]).is(0, &json, "");
}

#[test]
fn words_that_make_no_sense() {
    let s = with_shelf("shelf_words");
    let rows: [(&[&str], &str); 11] = [
        (&["shelf"], "shelf needs to be told what to do"),
        (&["shelf", "sort"], "shelf has no sort"),
        (&["shelf", "fetch"], "fetch needs a NUMBER"),
        (&["shelf", "fetch", "x", "two.shelf"], "x is no number of an entry"),
        (&["shelf", "build", "a.lnk"], "build needs -o SHELF"),
        (&["shelf", "list", "two.shelf", "two.shelf"], "there can be one input"),
        (&["shelf", "check", "-o", "x", "two.shelf"], "-o goes with build, fetch, from-old and to-old"),
        (&["shelf", "to-old", "--one", "two.shelf"], "--one goes with fetch"),
        (&["check", "--shelf", "two.shelf"], "check has no option --shelf"),
        (&["shelf", "check", "--profile", "95", "two.shelf"], "shelf has no option --profile"),
        (&["key", "--shelf", "--profile", "95", "two.shelf"], "--shelf excludes --profile: a shelf is strict"),
    ];
    for (words, why) in rows {
        s.run(words).is(2, "", &format!("herringnet: {}\nherringnet: see herringnet --help\n", why));
    }
    s.run(&["shelf", "fetch", "2", "two.shelf"]).is(
        1,
        "",
        "herringnet: two.shelf: refused 17 SHELF at 0: count, table, lengths or number do not fit a shelf\n",
    );
    let said = s.run(&["shelf", "check", "missing", "two.shelf"]);
    assert_eq!((said.status, text(&said.out)), (3, "two.shelf: ok 2\n"));
}
