//! Counted instructions: the committed run, a table of a new one beside it, and the tables of docs/PERFORMANCE.md.

#![allow(dead_code)]

/// What one call of one shape executes, on either side.
#[derive(Clone)]
pub struct Row {
    pub shape: String,
    pub bytes: u64,
    pub call: String,
    pub proved: u64,
    pub independent: u64,
}

/// A run: how it was counted, and its rows.
pub struct Run {
    pub counted: String,
    pub rows: Vec<Row>,
}

impl Run {
    /// A first line that says how it was counted, then a line for each row, its numbers after commas.
    pub fn parse(text: &str) -> Option<Run> {
        let mut lines = text.lines();
        let counted = lines.next()?.strip_prefix("# ")?.to_string();
        let rows = lines.map(Row::parse).collect::<Option<Vec<Row>>>()?;
        Some(Run { counted, rows })
    }

    fn find(&self, shape: &str, call: &str) -> Option<&Row> {
        self.rows.iter().find(|row| row.shape == shape && row.call == call)
    }

    /// The rows of shapes that are not made in several lengths.
    pub fn real(&self) -> Vec<&Row> {
        self.rows.iter().filter(|row| !row.shape.contains('-')).collect()
    }

    /// Each long shape at 4 and at 64 KiB.
    pub fn pairs(&self) -> Vec<[&Row; 2]> {
        let small = self.rows.iter().filter(|row| row.shape.ends_with("-4"));
        small.filter_map(|row| Some([row, self.find(&row.long_name(), &row.call)?])).collect()
    }
}

impl Row {
    fn parse(line: &str) -> Option<Row> {
        match line.split(',').collect::<Vec<_>>()[..] {
            [shape, bytes, call, proved, independent] => Some(Row {
                shape: shape.to_string(),
                bytes: bytes.parse().ok()?,
                call: call.to_string(),
                proved: proved.parse().ok()?,
                independent: independent.parse().ok()?,
            }),
            _ => None,
        }
    }

    /// At least 1.0 where the proved side executes no more.
    pub fn ratio(&self) -> f64 {
        self.independent as f64 / self.proved as f64
    }

    pub fn per_byte(&self) -> f64 {
        self.proved as f64 / self.bytes as f64
    }

    fn long_name(&self) -> String {
        format!("{}64", self.shape.trim_end_matches('4'))
    }
}

/// How many times as much a byte costs at 64 KiB as at 4 KiB.
pub fn growth(pair: &[&Row; 2]) -> f64 {
    pair[1].per_byte() / pair[0].per_byte()
}

/// What a person reads: each call of each shape, both sides, and how ours changed since the last run.
pub fn table(run: &Run, last: &Run) -> String {
    let mut lines = vec![
        format!("Executed instructions: {}.", run.counted),
        "Ratio = independent / proved: 1.00 and more where the proved code executes no more.".to_string(),
        format!("Change = proved side since the last committed run, which was: {}.", last.counted),
        String::new(),
        format!(
            "{:<15}{:<12}{:>7}{:>9}{:>13}{:>7}{:>9}",
            "Call", "Shape", "Bytes", "Proved", "Independent", "Ratio", "Change"
        ),
    ];
    let mut call = "";
    let mut rows: Vec<&Row> = run.rows.iter().collect();
    rows.sort_by_key(|row| place(run, &row.call));
    for row in rows {
        let name = if row.call == call { "" } else { &row.call };
        call = &row.call;
        lines.push(format!(
            "{:<15}{:<12}{:>7}{:>9}{:>13}{:>7.2}{:>9}",
            name,
            row.shape,
            row.bytes,
            row.proved,
            row.independent,
            row.ratio(),
            change(row, last.find(&row.shape, &row.call))
        ));
    }
    lines.join("\n") + "\n"
}

/// Calls stand in the order in which they first come.
fn place(run: &Run, call: &str) -> usize {
    run.rows.iter().position(|row| row.call == call).unwrap_or(usize::MAX)
}

fn change(row: &Row, last: Option<&Row>) -> String {
    match last {
        Some(last) if last.proved == row.proved => "0".to_string(),
        Some(last) => format!("{:+.1} %", 100.0 * (row.proved as f64 / last.proved as f64 - 1.0)),
        None => "new".to_string(),
    }
}

const TABLES: [(&str, fn(&Run) -> Vec<String>); 3] =
    [("counted", said), ("real", real_table), ("growth", growth_table)];

/// The page with its tables made anew, each between its two marks.
pub fn page(page: &str, run: &Run) -> Option<String> {
    TABLES.iter().try_fold(page.to_string(), |page, (name, lines)| {
        let (before, rest) = page.split_once(&format!("<!-- {}: made by tools/bench --write -->\n", name))?;
        let (_, after) = rest.split_once(&format!("<!-- end of {} -->", name))?;
        let made = lines(run).join("\n");
        Some(format!(
            "{}<!-- {}: made by tools/bench --write -->\n{}\n<!-- end of {} -->{}",
            before, name, made, name, after
        ))
    })
}

fn said(run: &Run) -> Vec<String> {
    vec![format!("Counted {}.", run.counted)]
}

/// A line for each call, with both sides and the ratio for each shape.
fn real_table(run: &Run) -> Vec<String> {
    let rows = run.real();
    let shapes = each(rows.iter().map(|row| row.shape.as_str()));
    let mut lines = vec![format!("| Call | {} |", shapes.join(" | ")), format!("|---{}|", "|---".repeat(shapes.len()))];
    let bytes = |shape: &&str| rows.iter().find(|row| row.shape == **shape).map_or(0, |row| row.bytes).to_string();
    lines.push(format!("| bytes | {} |", shapes.iter().map(bytes).collect::<Vec<_>>().join(" | ")));
    for call in each(rows.iter().map(|row| row.call.as_str())) {
        let cell = |shape: &&str| match run.find(shape, call) {
            Some(row) => format!("{} / {} = {:.2}", row.independent, row.proved, row.ratio()),
            None => String::new(),
        };
        lines.push(format!("| {} | {} |", call, shapes.iter().map(cell).collect::<Vec<_>>().join(" | ")));
    }
    lines
}

fn growth_table(run: &Run) -> Vec<String> {
    let mut lines = vec![
        "| Shape | Call | 4 KiB | 64 KiB | Ratio at 64 KiB | A byte at 4 KiB | at 64 KiB | Growth |".to_string(),
        "|---|---|---|---|---|---|---|---|".to_string(),
    ];
    for pair in run.pairs() {
        let [small, long] = pair;
        lines.push(format!(
            "| {} | {} | {} | {} | {:.2} | {:.3} | {:.3} | {:.2} |",
            small.shape.trim_end_matches("-4"),
            small.call,
            small.proved,
            long.proved,
            long.ratio(),
            small.per_byte(),
            long.per_byte(),
            growth(&pair)
        ));
    }
    lines
}

/// Each name once, in the order in which it first comes.
fn each<'a>(names: impl Iterator<Item = &'a str>) -> Vec<&'a str> {
    let mut once = Vec::new();
    for name in names {
        if !once.contains(&name) {
            once.push(name);
        }
    }
    once
}
