//! docs/PERFORMANCE.md has the tables of the committed run, and that run keeps what the page says of growth.
#[path = "../benches/figures/mod.rs"]
mod figures;
mod repository;

use figures::{growth, page, table, Row, Run};
use repository::root;
use std::fs;

fn committed() -> Run {
    let text = fs::read_to_string(root().join("docs/performance.csv")).unwrap();
    Run::parse(&text).expect("docs/performance.csv is a run")
}

fn row(shape: &str, call: &str, proved: u64) -> Row {
    Row { shape: shape.to_string(), bytes: 100, call: call.to_string(), proved, independent: 300 }
}

#[test]
fn the_page_has_the_tables_of_the_committed_run() {
    let path = root().join("docs/PERFORMANCE.md");
    let text = fs::read_to_string(path).unwrap();
    let made = page(&text, &committed()).expect("the page has the marks of every table");
    assert!(made == text, "docs/PERFORMANCE.md is not what tools/bench --write makes of docs/performance.csv");
}

#[test]
fn every_real_shape_and_every_pair_of_long_ones_is_counted() {
    let run = committed();
    let shapes = ["local", "network", "environment", "stored", "longhead", "win95"];
    assert!(shapes.iter().all(|shape| run.real().iter().any(|row| row.shape == **shape && row.call == "check")));
    let long = run.rows.iter().filter(|row| row.shape.contains('-')).count();
    assert_eq!(long, 2 * run.pairs().len(), "a long shape is counted in one length alone");
    assert!(run.pairs().len() > 40);
}

#[test]
fn a_byte_costs_no_more_than_a_tenth_more_at_64_kib() {
    for pair in committed().pairs() {
        assert!(growth(&pair) <= 1.1, "{} of {} grows by {:.2}", pair[0].call, pair[0].shape, growth(&pair));
    }
}

#[test]
fn a_changed_figure_is_told() {
    let last = Run { counted: "then".to_string(), rows: vec![row("local", "check", 200), row("local", "key", 250)] };
    let rows = vec![row("local", "check", 190), row("local", "key", 250), row("win95", "key", 100)];
    let told = table(&Run { counted: "now".to_string(), rows }, &last);
    let ends: Vec<&str> = told.lines().skip(5).map(|line| line.trim_end()).collect();
    assert!(ends[0].starts_with("check") && ends[0].ends_with("1.58   -5.0 %"), "{}", told);
    assert!(ends[1].starts_with("key") && ends[1].ends_with("1.20        0"), "{}", told);
    assert!(ends[2].starts_with(' ') && ends[2].ends_with("3.00      new"), "{}", told);
}

#[test]
fn a_page_without_a_mark_is_not_written() {
    assert!(page("a page", &committed()).is_none());
    assert!(Run::parse("local,1,check,2,3\n").is_none());
    assert!(Run::parse("# now\nlocal,1,check,2\n").is_none());
}
