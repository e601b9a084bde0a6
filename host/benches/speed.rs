//! The proved library and the independent implementation, timed on the same shortcuts in one run.
//!
//! Without words it prints tables of times. For tools/count: `speed rows` prints each shape with its bytes and a call that
//! is counted, and `speed count SHAPE CALL N --proved` (or `--independent`) makes N calls of one side and ends, so that
//! instructions can be counted from outside. For tools/bench: `speed table RUN LAST` prints a run beside the last one, and
//! `speed page RUN PAGE` the page with its tables made of the run.

mod figures;
#[path = "../tests/independent/mod.rs"]
mod independent;
mod shapes;

use figures::Run;
use herringnet::boundary as proved;
use independent::{FIELDS, LIMIT};
use std::fs;
use std::time::{Duration, Instant};

const REPEATS: usize = 11;

/// Turns of each side in a repeat; the quickest counts, since other work on the machine only slows.
const TURNS: usize = 8;

/// The least time of one turn.
const TURN: Duration = Duration::from_micros(500);

const COPY_SETTING: &str = "glibc.cpu.x86_rep_movsb_threshold=1000000000";

/// A shortcut with all that the calls need.
struct Case {
    shape: String,
    shortcut: Vec<u8>,
    profile: u32,
    /// The shortcut with strings of bytes and with Unicode ones; empty where it cannot be moved.
    in_bytes: Vec<u8>,
    in_unicode: Vec<u8>,
    record: [u64; FIELDS],
    fields: [u64; FIELDS],
    /// The rows of its property store; empty where it has none.
    rows: Vec<u64>,
    listed: Vec<u64>,
    /// Of a shelf: the lengths of its entries, these end to end, and the old form.
    lengths: Vec<u64>,
    bodies: Vec<u8>,
    old: Vec<u8>,
    out: Vec<u8>,
}

/// Calls go through pointers, so that no call can be moved out of its loop.
type Side = fn(&mut Case) -> u64;

struct Call {
    name: &'static str,
    proved: Side,
    independent: Side,
}

/// A call by its name: the same expression on both sides.
macro_rules! calls {
    ($($name:literal: $case:ident => $proved:expr, $independent:expr;)*) => {
        [$(Call { name: $name, proved: |$case| $proved, independent: |$case| $independent }),*]
    };
}

const CALLS: [Call; 22] = calls! {
    "check": c => proved::check(&c.shortcut, c.profile), independent::boundary_check(&c.shortcut, c.profile);
    "fault": c => proved::fault(&c.shortcut, c.profile), independent::boundary_fault(&c.shortcut, c.profile);
    "read": c => proved::read(&c.shortcut, &mut c.fields, c.profile),
        independent::boundary_read(&c.shortcut, &mut c.fields, c.profile);
    // The first block.
    "section": c => proved::section(&c.shortcut, 8, 0, c.profile),
        independent::boundary_section(&c.shortcut, 8, 0, c.profile);
    "target": c => proved::target(&c.shortcut, &mut c.out, c.profile),
        independent::boundary_target(&c.shortcut, &mut c.out, c.profile);
    "key": c => proved::key(&c.shortcut, &mut c.out, c.profile),
        independent::boundary_key(&c.shortcut, &mut c.out, c.profile);
    "key_blind": c => proved::key_blind(&c.shortcut, c.profile),
        independent::boundary_key_blind(&c.shortcut, c.profile);
    // What a scheduler does with each shortcut.
    "check+key": c => proved::check(&c.shortcut, c.profile) + proved::key(&c.shortcut, &mut c.out, c.profile),
        independent::boundary_check(&c.shortcut, c.profile)
            + independent::boundary_key(&c.shortcut, &mut c.out, c.profile);
    "write": c => proved::write(&c.record, &c.shortcut, &mut c.out, c.profile),
        independent::boundary_write(&c.record, &c.shortcut, &mut c.out, c.profile);
    "rewrite": c => proved::read(&c.shortcut, &mut c.fields, c.profile)
            + proved::write(&c.fields, &c.shortcut, &mut c.out, c.profile),
        independent::boundary_read(&c.shortcut, &mut c.fields, c.profile)
            + independent::boundary_write(&c.fields, &c.shortcut, &mut c.out, c.profile);
    "path_block": c => proved::path_block(&c.record, &c.shortcut, ENVIRONMENT, TEXT, UNICODE, &mut c.out, c.profile),
        independent::boundary_path_block(&c.record, &c.shortcut, ENVIRONMENT, TEXT, UNICODE, &mut c.out, c.profile);
    "to_unicode": c => proved::to_unicode(&c.in_bytes, &mut c.out, c.profile),
        independent::boundary_to_unicode(&c.in_bytes, &mut c.out, c.profile);
    "to_bytes": c => proved::to_bytes(&c.in_unicode, &mut c.out, c.profile),
        independent::boundary_to_bytes(&c.in_unicode, &mut c.out, c.profile);
    "store_list": c => proved::store_list(&c.shortcut, &mut c.listed, c.profile),
        independent::boundary_store_list(&c.shortcut, &mut c.listed, c.profile);
    "store_write": c => proved::store_write(&c.rows, &c.shortcut, &mut c.out),
        independent::boundary_store_write(&c.rows, &c.shortcut, &mut c.out);
    "salvage": c => proved::salvage(&c.shortcut, &mut c.out), independent::boundary_salvage(&c.shortcut, &mut c.out);
    "shelf_check": c => proved::shelf_check(&c.shortcut), independent::boundary_shelf_check(&c.shortcut);
    // The last entry of a shelf: with a test of all entries, and of this one alone.
    "shelf_entry": c => proved::shelf_entry(&c.shortcut, c.lengths.len() - 1),
        independent::boundary_shelf_entry(&c.shortcut, c.lengths.len() - 1);
    "shelf_one": c => proved::shelf_one(&c.shortcut, c.lengths.len() - 1),
        independent::boundary_shelf_one(&c.shortcut, c.lengths.len() - 1);
    "shelf_build": c => proved::shelf_build(&c.lengths, &c.bodies, &mut c.out),
        independent::boundary_shelf_build(&c.lengths, &c.bodies, &mut c.out);
    "shelf_from_old": c => proved::shelf_from_old(&c.old, &mut c.out),
        independent::boundary_shelf_from_old(&c.old, &mut c.out);
    "shelf_to_old": c => proved::shelf_to_old(&c.shortcut, &mut c.out),
        independent::boundary_shelf_to_old(&c.shortcut, &mut c.out);
};

/// The path block that is put in.
const ENVIRONMENT: u32 = 0xA000_0001;
const TEXT: &[u8] = br"%TOOLS%\cc.exe";
const UNICODE: &[u8] = b"%\0T\0%\0\\\0c\0c\0";

impl Case {
    fn new(shape: &str) -> Case {
        let shortcut = shapes::shape(shape).unwrap_or_else(|| stop("no such shape"));
        let profile = shapes::profile(shape);
        let mut record = [0; FIELDS];
        independent::boundary_read(&shortcut, &mut record, profile);
        let mut listed = vec![0; LIMIT];
        let answer = independent::boundary_store_list(&shortcut, &mut listed, profile);
        let rows = if is_ok(answer) { listed[..6 * (answer >> 8) as usize].to_vec() } else { Vec::new() };
        let [in_bytes, in_unicode] = both_kinds(&shortcut, profile);
        let mut case = Case {
            shape: shape.to_string(),
            shortcut,
            profile,
            in_bytes,
            in_unicode,
            record,
            fields: [0; FIELDS],
            rows,
            listed,
            lengths: Vec::new(),
            bodies: Vec::new(),
            old: Vec::new(),
            out: vec![0; LIMIT],
        };
        case.take_shelf();
        case
    }

    fn is_shelf(&self) -> bool {
        self.shape.starts_with("shelf")
    }

    /// What the calls of a shelf are given.
    fn take_shelf(&mut self) {
        if !self.is_shelf() {
            return;
        }
        let count = self.shortcut[0] as usize;
        self.bodies = self.shortcut[4 + 8 * count..].to_vec();
        self.lengths = vec![(self.bodies.len() / count) as u64; count];
        let answer = independent::boundary_shelf_to_old(&self.shortcut, &mut self.out);
        self.old = self.out[..(answer >> 8) as usize].to_vec();
    }

    /// A refused shortcut is only looked at, not every one has a store or can be moved or has space for one more block,
    /// salvage is strict, and a shelf has calls of its own.
    fn can(&mut self, call: &Call) -> bool {
        if call.name.starts_with("shelf") != self.is_shelf() {
            return false;
        }
        match call.name {
            "write" | "rewrite" | "path_block" | "salvage" => is_ok((call.independent)(self)),
            "to_unicode" | "to_bytes" => !self.in_unicode.is_empty(),
            "store_list" | "store_write" => !self.rows.is_empty(),
            _ => true,
        }
    }
}

fn is_ok(answer: u64) -> bool {
    answer & 0xFF == 0
}

/// A shortcut with strings of bytes and what it is in Unicode, if it can be moved.
fn both_kinds(shortcut: &[u8], profile: u32) -> [Vec<u8>; 2] {
    let moved = |to: fn(&[u8], &mut [u8], u32) -> u64, shortcut: &[u8]| {
        let mut out = vec![0; LIMIT];
        let answer = to(shortcut, &mut out, profile);
        out.truncate((answer >> 8) as usize);
        is_ok(answer).then_some(out)
    };
    let home = moved(independent::boundary_to_bytes, shortcut).unwrap_or_else(|| shortcut.to_vec());
    match moved(independent::boundary_to_unicode, &home) {
        Some(there) => [home, there],
        None => [Vec::new(), Vec::new()],
    }
}

/// What is counted of a long shape: some are there for one kind of call, and two calls in a row say nothing more.
fn is_counted(kind: &str, call: &str) -> bool {
    match kind {
        "letters" => ["to_unicode", "to_bytes"].contains(&call),
        "paths" => call == "path_block",
        "overlap" | "unended" => false,
        _ => !["fault", "section", "check+key", "rewrite", "path_block", "to_unicode", "to_bytes"].contains(&call),
    }
}

/// A line for each shape and call that is counted, with the shape's length.
fn print_rows() {
    for shape in shapes::SMALL {
        print_calls(shape, |_| true);
    }
    for kind in shapes::LONG {
        for size in [4, 64] {
            print_calls(&format!("{}-{}", kind, size), |call| is_counted(kind, call));
        }
    }
}

fn print_calls(shape: &str, is_counted: impl Fn(&str) -> bool) {
    let mut case = Case::new(shape);
    let length = case.shortcut.len();
    for call in CALLS.iter().filter(|call| is_counted(call.name) && case.can(call)) {
        println!("{} {} {}", shape, length, call.name);
    }
}

fn run_in(path: &str) -> Run {
    let text = fs::read_to_string(path).unwrap_or_else(|error| stop(&format!("{}: {}", path, error)));
    Run::parse(&text).unwrap_or_else(|| stop(&format!("{} is no run", path)))
}

fn print_page(run: &str, path: &str) {
    let page = fs::read_to_string(path).unwrap_or_else(|error| stop(&format!("{}: {}", path, error)));
    match figures::page(&page, &run_in(run)) {
        Some(page) => print!("{}", page),
        None => stop(&format!("{} has not all marks of tables", path)),
    }
}

fn main() {
    let words: Vec<String> = std::env::args().skip(1).filter(|word| word != "--bench").collect();
    let words: Vec<&str> = words.iter().map(String::as_str).collect();
    match words[..] {
        [] => tables(),
        ["count", shape, call, count, side] => count_calls(shape, call, count, side),
        ["rows"] => print_rows(),
        ["table", run, last] => print!("{}", figures::table(&run_in(run), &run_in(last))),
        ["page", run, path] => print_page(run, path),
        _ => stop("speed [rows | count SHAPE CALL N --proved|--independent | table RUN LAST | page RUN PAGE]"),
    }
}

fn stop(why: &str) -> ! {
    eprintln!("{}", why);
    std::process::exit(2)
}

fn count_calls(shape: &str, call: &str, count: &str, side: &str) {
    let mut case = Case::new(shape);
    let call = CALLS.iter().find(|known| known.name == call);
    let call = call.unwrap_or_else(|| stop("no such call"));
    if !case.can(call) {
        stop("this shape cannot be called so");
    }
    let side = match side {
        "--proved" => call.proved,
        "--independent" => call.independent,
        _ => stop("--proved or --independent"),
    };
    let count = count.parse().unwrap_or_else(|_| stop("N is a number"));
    println!("{}", run(side, &mut case, count));
}

/// Makes the calls and adds their answers up.
fn run(side: Side, case: &mut Case, count: usize) -> u64 {
    (0..count).fold(0, |sum, _| sum.wrapping_add(side(case)))
}

fn time(side: Side, case: &mut Case, count: usize) -> f64 {
    let start = Instant::now();
    let sum = run(side, case, count);
    let elapsed = start.elapsed().as_secs_f64() * 1e9 / count as f64;
    if sum == u64::MAX {
        println!("an unlikely sum");
    }
    elapsed
}

/// So many calls that the faster side fills a turn.
fn enough_calls(call: &Call, case: &mut Case) -> usize {
    let mut count = 1;
    loop {
        let fastest = time(call.proved, case, count).min(time(call.independent, case, count));
        let needed = TURN.as_nanos() as f64;
        if fastest * count as f64 >= needed / 2.0 {
            return (needed / fastest) as usize + 1;
        }
        count *= 4;
    }
}

/// Medians over the repeats, in nanoseconds for each call, and the spread of the ratios.
struct Figures {
    proved: f64,
    independent: f64,
    ratio: f64,
    least: f64,
    greatest: f64,
}

fn measure(call: &Call, case: &mut Case) -> Figures {
    let answers = [(call.proved)(case), (call.independent)(case)];
    assert_eq!(answers[0], answers[1], "the two sides answer differently");
    let count = enough_calls(call, case);
    let (mut proved, mut independent, mut ratios) = (Vec::new(), Vec::new(), Vec::new());
    for _ in 0..REPEATS {
        let (p, i) = by_turns(call, case, count);
        proved.push(p);
        independent.push(i);
        ratios.push(i / p);
    }
    let ratio = median(&mut ratios);
    Figures {
        proved: median(&mut proved),
        independent: median(&mut independent),
        ratio,
        least: ratios[0],
        greatest: ratios[REPEATS - 1],
    }
}

/// The quickest turn of each side.
fn by_turns(call: &Call, case: &mut Case, count: usize) -> (f64, f64) {
    let (mut proved, mut independent) = (f64::MAX, f64::MAX);
    for _ in 0..TURNS {
        proved = proved.min(time(call.proved, case, count));
        independent = independent.min(time(call.independent, case, count));
    }
    (proved, independent)
}

/// The middle value; leaves the values in order.
fn median(values: &mut [f64]) -> f64 {
    values.sort_by(|one, two| one.partial_cmp(two).unwrap());
    values[values.len() / 2]
}

fn tables() {
    let emulated = std::env::var("HERRINGNET_EMULATED").map_or(false, |value| value == "1");
    let machine = if emulated { "under emulation" } else { "on the machine itself" };
    println!("Run {}; {} repeats, in each the quickest of {} turns.", machine, REPEATS, TURNS);
    println!("Ratio = independent time / proved time: at least 1.0 where the proved code is as fast.");
    println!("Shapes `overlap` and `unended` are refused, so nothing of them is written or moved.");
    if emulated && !copies_as_on_a_machine() {
        println!("Emulation makes the C library's long copies very slow, and so the independent side's");
        println!("`write`, `target` and `key`; for fair figures set GLIBC_TUNABLES={}.", COPY_SETTING);
    }
    println!();
    println!("| Shape | Bytes | Call | Proved ns | Independent ns | Ratio | Least | Greatest |");
    println!("|---|---|---|---|---|---|---|---|");
    for shape in shapes::SMALL {
        rows(shape);
    }
    for shape in shapes::LONG {
        rows(&format!("{}-64", shape));
    }
    println!("\nNanoseconds per byte, proved / independent:\n");
    println!("| Shape | Call | 4 KiB | 16 KiB | 64 KiB |");
    println!("|---|---|---|---|---|");
    for shape in shapes::LONG {
        per_byte(shape);
    }
}

/// Whether the C library was told to copy without the one instruction that emulators do byte by byte.
fn copies_as_on_a_machine() -> bool {
    std::env::var("GLIBC_TUNABLES").map_or(false, |value| value.contains("x86_rep_movsb_threshold"))
}

fn rows(shape: &str) {
    let mut case = Case::new(shape);
    for call in CALLS {
        if !case.can(&call) {
            continue;
        }
        let f = measure(&call, &mut case);
        println!(
            "| {} | {} | {} | {:.0} | {:.0} | {:.2} | {:.2} | {:.2} |",
            shape,
            case.shortcut.len(),
            call.name,
            f.proved,
            f.independent,
            f.ratio,
            f.least,
            f.greatest
        );
    }
}

fn per_byte(shape: &str) {
    let mut cases = [4, 16, 64].map(|size| Case::new(&format!("{}-{}", shape, size)));
    for call in CALLS {
        if !cases.iter_mut().all(|case| case.can(&call)) {
            continue;
        }
        let columns: Vec<String> = cases
            .iter_mut()
            .map(|case| {
                let f = measure(&call, case);
                let length = case.shortcut.len() as f64;
                format!("{:.3} / {:.3}", f.proved / length, f.independent / length)
            })
            .collect();
        println!("| {} | {} | {} |", shape, call.name, columns.join(" | "));
    }
}
