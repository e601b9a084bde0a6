//! The page: counts, a row for each file, the keys that are shared, what is blind, refused and unread.
use super::html::{counted, data, escaped, folded, marked, number};
use super::row::{Accepted, Refused, Row, Told};
use crate::cli::input::{reason, Input};
use herringnet::audit::{Audit, Group, Member};
use herringnet::difference::Difference;
use herringnet::Profile;
use std::collections::HashMap;
use std::path::Path;

const STYLE: &str = include_str!("style.css");

/// How many digits of a digest stand in a row; 64 bits tell all keys of a farm apart.
const DIGITS: usize = 16;
/// How many files are told before the others are folded.
const FILES: usize = 8;
/// With more refused files than this their bytes are folded.
const OPEN: usize = 5;

pub struct Page<'a> {
    audit: &'a Audit,
    rows: &'a [Row],
    profile: Profile,
    /// The shared keys with what could be different drivers first.
    groups: Vec<&'a Group>,
    /// The number of its group, and of its place among the blind and the refused ones, for each file that has one.
    shared: HashMap<&'a Path, usize>,
    blind: HashMap<&'a Path, usize>,
    refused: HashMap<&'a Path, usize>,
}

/// The name of a file, told from every other.
fn name(path: &Path) -> String {
    data(Input::File(path.to_path_buf()))
}

fn chip(class: &str, link: &str, text: &str) -> String {
    format!("<a class=\"chip {}\" href=\"#{}\">{}</a>", class, link, escaped(text))
}

impl<'a> Page<'a> {
    pub fn new(audit: &'a Audit, rows: &'a [Row], profile: Profile) -> Page<'a> {
        let (mut groups, one): (Vec<_>, Vec<_>) = audit.groups.iter().partition(|group| !group.is_one_driver());
        groups.extend(one);
        let numbered = groups.iter().enumerate();
        let shared = numbered.flat_map(|(number, group)| files(group).map(move |path| (path, number))).collect();
        let blind = audit.blind.iter().enumerate().map(|(number, file)| (file.path.as_path(), number)).collect();
        let refused = refused_rows(rows).enumerate().map(|(number, (row, _))| (row.path.as_path(), number)).collect();
        Page { audit, rows, profile, groups, shared, blind, refused }
    }

    pub fn html(&self) -> String {
        let title = format!("{}. {}", counted(self.audit.files, "shortcut"), self.verdict());
        [
            "<!DOCTYPE html>\n<html lang=\"en\">\n<head>\n<meta charset=\"utf-8\">\n".to_string(),
            "<meta name=\"viewport\" content=\"width=device-width, initial-scale=1\">\n".to_string(),
            // Nothing is fetched and nothing is run, whatever a shortcut says.
            "<meta http-equiv=\"Content-Security-Policy\" content=\"default-src 'none'; style-src 'unsafe-inline'\">\n"
                .to_string(),
            format!("<title>{}</title>\n<style>\n{}</style>\n</head>\n<body>\n", escaped(title), STYLE),
            self.head(),
            self.all(),
            self.keys(),
            self.blind(),
            self.refused(),
            self.unread(),
            self.foot(),
            "</body>\n</html>\n".to_string(),
        ]
        .concat()
    }

    /// The verdict in a few words.
    fn verdict(&self) -> String {
        let audit = self.audit;
        let found = [
            (audit.mixed(), counted(audit.mixed(), "key") + " with more than one driver possible"),
            (audit.blind.len(), counted(audit.blind.len(), "blind shortcut")),
            (audit.refused.len(), counted(audit.refused.len(), "refused file")),
            (audit.unread.len(), counted(audit.unread.len(), "file") + " that could not be read"),
        ];
        let found: Vec<String> = found.into_iter().filter(|(count, _)| *count > 0).map(|(_, words)| words).collect();
        match found.is_empty() {
            true => "Nothing to look at".to_string(),
            false => format!("To look at: {}", found.join(", ")),
        }
    }

    fn head(&self) -> String {
        let audit = self.audit;
        let class = if audit.is_clean() { "good" } else { "bad" };
        let tile = |class: &str, link: &str, count: usize, words: &str| {
            let words = match count {
                0 => escaped(words),
                _ => format!("<a href=\"#{}\">{}</a>", link, escaped(words)),
            };
            let class = if count == 0 { "" } else { class };
            format!("<li class=\"{}\"><b>{}</b>{}</li>\n", class, number(count), words)
        };
        let tiles = [
            tile("", "all", audit.files, "files"),
            tile("good", "all", audit.accepted, "accepted"),
            tile("bad", "refused", audit.refused.len(), "refused"),
            tile("warn", "blind", audit.blind.len(), "blind: the key does not tell the driver"),
            tile("", "keys", audit.groups.len(), "keys shared by several files"),
            tile("bad", "keys", audit.mixed(), "of these with more than one driver possible"),
            tile("bad", "unread", audit.unread.len(), "could not be read"),
        ];
        let sharing = self.sharing();
        format!(
            "<header>\n<h1>{}</h1>\n<p class=\"verdict {}\">{}</p>\n<ul class=\"counts\">\n{}</ul>\n{}</header>\n<main>\n",
            counted(audit.files, "shortcut"),
            class,
            escaped(self.verdict()),
            tiles.concat(),
            sharing
        )
    }

    /// Which keys are shared: those of one driver are folded, as there is nothing to look at.
    fn sharing(&self) -> String {
        let chips = |wanted: bool| -> String {
            let groups = self.groups.iter().enumerate().filter(|(_, group)| group.is_one_driver() == wanted);
            let chips = groups.map(|(number, group)| {
                let words = format!("key {}: {}", number + 1, counted(group.len(), "file"));
                format!("<li>{}</li>\n", chip(verdict(group).0, &format!("key-{}", number + 1), &words))
            });
            chips.collect()
        };
        let list = |chips: &str| format!("<ul class=\"chips\">\n{}</ul>\n", chips);
        let mixed = match self.audit.mixed() {
            0 => String::new(),
            count => format!(
                "<p>{} shared by what could be different drivers:</p>\n{}",
                counted(count, "key"),
                list(&chips(false))
            ),
        };
        let one = match self.audit.groups.len() - self.audit.mixed() {
            0 => String::new(),
            count => format!(
                "<details><summary>{} shared by files of one driver</summary>\n{}</details>\n",
                counted(count, "key"),
                list(&chips(true))
            ),
        };
        match self.audit.groups.is_empty() {
            true => "<p>No two files share a key.</p>\n".to_string(),
            false => mixed + &one,
        }
    }

    fn all(&self) -> String {
        let rows: String = self.rows.iter().map(|row| self.row(row)).collect();
        format!(
            "<section id=\"all\">\n<h2>All shortcuts</h2>\n<table class=\"all\">\n<thead><tr>\
             <th scope=\"col\" class=\"file\">File</th><th scope=\"col\" class=\"verdicts\">Verdict</th>\
             <th scope=\"col\" class=\"target\">Target</th><th scope=\"col\">Arguments</th>\
             <th scope=\"col\" class=\"key\">Key, SHA-256</th><th scope=\"col\" class=\"core\">Core name in the store</th>\
             </tr></thead>\n<tbody>\n{}</tbody>\n</table>\n</section>\n",
            rows
        )
    }

    fn row(&self, row: &Row) -> String {
        let file = format!("<td class=\"file\" data-label=\"File\">{}</td>", name(&row.path));
        let verdict = |chips: String| format!("<td data-label=\"Verdict\"><div>{}</div></td>", chips);
        let why = |text: &str| format!("<td colspan=\"4\" data-label=\"Why\"><span>{}</span></td>", escaped(text));
        let rest = match &row.told {
            Told::Accepted(accepted) => [verdict(self.accepted_chips(&row.path)), cells(accepted)].concat(),
            Told::Refused(refused) => {
                let number = self.refused.get(row.path.as_path()).map_or(0, |number| number + 1);
                let chip = chip("bad", &format!("refused-{}", number), &format!("refused {}", refused.fault));
                [verdict(chip), why(&refused.why)].concat()
            }
            Told::Unread(error) => [verdict(chip("bad", "unread", "unread")), why(error)].concat(),
        };
        format!("<tr>{}{}</tr>\n", file, rest)
    }

    fn accepted_chips(&self, path: &Path) -> String {
        let mut chips = "<span class=\"chip good\">accepted</span>".to_string();
        if let Some(number) = self.blind.get(path) {
            chips += &chip("warn", &format!("blind-{}", number + 1), "blind");
        }
        if let Some(number) = self.shared.get(path) {
            let (class, _) = verdict(self.groups[*number]);
            chips += &chip(class, &format!("key-{}", number + 1), &format!("shares key {}", number + 1));
        }
        chips
    }

    fn keys(&self) -> String {
        let groups: String = self.groups.iter().enumerate().map(|(number, group)| key(number + 1, group)).collect();
        let intro =
            "Each file is told beside the first of its group. A part in red could name the driver, or is given \
                     to it; what differs is marked.";
        section("keys", "Keys shared by several files", intro, &groups)
    }

    fn blind(&self) -> String {
        let intro = "Of these the key does not tell all that could name the driver: two cores can get one key.";
        let items = self.audit.blind.iter().enumerate().map(|(number, file)| {
            let spots: Vec<String> = file.spots.iter().map(|spot| escaped(spot)).collect();
            let id = format!("blind-{}", number + 1);
            format!("<tr id=\"{}\"><td>{}</td><td>{}</td></tr>\n", id, name(&file.path), spots.join("; "))
        });
        let rows: String = items.collect();
        let table = format!(
            "<table>\n<thead><tr><th scope=\"col\">File</th><th scope=\"col\">What the key does not tell</th></tr></thead>\n\
             <tbody>\n{}</tbody>\n</table>\n",
            rows
        );
        section("blind", "Blind", intro, if rows.is_empty() { "" } else { &table })
    }

    fn refused(&self) -> String {
        let open = if self.audit.refused.len() > OPEN { "" } else { " open" };
        let rows = refused_rows(self.rows).enumerate();
        let all: String = rows.map(|(number, row)| refusal(number + 1, row, open)).collect();
        let intro = "The line of the field found wrong begins with >, bytes that nobody judged begin with ?.";
        section("refused", "Refused", intro, &all)
    }

    fn unread(&self) -> String {
        let items = self.audit.unread.iter();
        let items = items.map(|file| format!("<li>{}: {}</li>\n", name(&file.path), escaped(reason(&file.error))));
        let list: String = items.collect();
        let list = if list.is_empty() { list } else { format!("<ul>\n{}</ul>\n", list) };
        section("unread", "Not read", "These could not be read, or changed while they were looked at.", &list)
    }

    fn foot(&self) -> String {
        let profile = match self.profile {
            Profile::Strict => "strict",
            Profile::NinetyFive => "95",
        };
        format!(
            "</main>\n<footer>\n<p>herringnet {}, profile {}, archive sha256 <span class=\"data\">{}</span></p>\n\
             <p>A key is told by the first {} digits of the SHA-256 of its bytes. Files are grouped by the keys \
             themselves.</p>\n</footer>\n",
            env!("CARGO_PKG_VERSION"),
            profile,
            herringnet::ARCHIVE_DIGEST,
            DIGITS
        )
    }
}

fn refused_rows(rows: &[Row]) -> impl Iterator<Item = (&Row, &Refused)> {
    rows.iter().filter_map(|row| match &row.told {
        Told::Refused(refused) => Some((row, refused)),
        _ => None,
    })
}

/// A section of the page, if there is anything in it.
fn section(id: &str, title: &str, intro: &str, inside: &str) -> String {
    match inside.is_empty() {
        true => String::new(),
        false => format!(
            "<section id=\"{}\">\n<h2>{}</h2>\n<p class=\"dim\">{}</p>\n{}</section>\n",
            id,
            title,
            escaped(intro),
            inside
        ),
    }
}

fn files(group: &Group) -> impl Iterator<Item = &Path> {
    std::iter::once(group.first.as_path()).chain(group.others.iter().map(|member| member.path.as_path()))
}

/// The class and the words for a shared key.
fn verdict(group: &Group) -> (&'static str, &'static str) {
    match group.is_one_driver() {
        true => ("", "one driver"),
        false => ("bad", "more than one driver possible"),
    }
}

/// The cells of an accepted shortcut.
fn cells(accepted: &Accepted) -> String {
    let none = || "<span class=\"dim\">none</span>".to_string();
    let text = |text: &Option<String>| text.as_ref().map_or_else(none, |text| data(folded(text)));
    let core: Vec<String> =
        accepted.core.iter().map(|(name, text)| data(folded(&format!("{}: {}", name, text)))).collect();
    let others = match accepted.other_values {
        0 => String::new(),
        count if core.is_empty() => format!("<span class=\"dim\">no text, {}</span>", counted(count, "value")),
        count => format!("<br><span class=\"dim\">and {}</span>", counted(count, "value")),
    };
    let core = if core.is_empty() && others.is_empty() { none() } else { core.join("<br>") + &others };
    let cell = |label: &str, inside: String| format!("<td data-label=\"{}\"><div>{}</div></td>", label, inside);
    [
        cell("Target", text(&accepted.target)),
        cell("Arguments", text(&accepted.arguments)),
        cell("Key", data(&accepted.digest[..DIGITS])),
        cell("Core name", core),
    ]
    .concat()
}

/// A shared key: its files, and those that differ from the first beside it.
fn key(number: usize, group: &Group) -> String {
    let (class, words) = verdict(group);
    let open = if group.is_one_driver() { "" } else { " open" };
    let summary = format!(
        "<b>Key {}</b>: {} <span class=\"chip {}\">{}</span>",
        number,
        counted(group.len(), "file"),
        class,
        words
    );
    let (same, others): (Vec<&Member>, Vec<&Member>) =
        group.others.iter().partition(|member| member.differences.is_empty());
    let same: Vec<&Path> = same.into_iter().map(|member| member.path.as_path()).collect();
    let mut inside = format!(
        "<p class=\"dim\">SHA-256 of the key: <span class=\"data\">{}</span></p>\n<p>First: {}</p>\n",
        super::digest::sha256(&group.key),
        name(&group.first)
    );
    if !same.is_empty() {
        inside += &format!("<p>The same bytes:</p>\n{}", listed(&same));
    }
    inside += &alike(&others).iter().map(|members| beside(group, members)).collect::<String>();
    format!("<details id=\"key-{}\"{}>\n<summary>{}</summary>\n{}</details>\n", number, open, summary, inside)
}

/// Files of a group that differ from the first in the same way, together.
fn alike<'m>(members: &[&'m Member]) -> Vec<Vec<&'m Member>> {
    let mut sorts: Vec<Vec<&Member>> = Vec::new();
    let mut found: HashMap<Vec<(&str, String)>, usize> = HashMap::new();
    for member in members {
        let way = member.differences.iter().map(|one| (&one.part[..], one.words())).collect();
        let number = *found.entry(way).or_insert_with(|| {
            sorts.push(Vec::new());
            sorts.len() - 1
        });
        sorts[number].push(member);
    }
    sorts
}

/// The names of files, those after the first few folded.
fn listed(paths: &[&Path]) -> String {
    let list = |paths: &[&Path]| {
        let items: String = paths.iter().map(|path| format!("<li>{}</li>\n", name(path))).collect();
        format!("<ul class=\"files\">\n{}</ul>\n", items)
    };
    match paths.len() > FILES + 1 {
        true => {
            let (first, rest) = paths.split_at(FILES);
            let more = format!("<summary>and {} more</summary>", number(rest.len()));
            format!("{}<details>{}\n{}</details>\n", list(first), more, list(rest))
        }
        false => list(paths),
    }
}

/// Files beside the first of their group, part by part; what could name the driver comes first.
fn beside(group: &Group, members: &[&Member]) -> String {
    let paths: Vec<&Path> = members.iter().map(|member| member.path.as_path()).collect();
    let mut differences: Vec<&Difference> = members[0].differences.iter().collect();
    differences.sort_by_key(|difference| !difference.could_name);
    let rows = differences.into_iter().map(|difference| {
        let absent = "absent".to_string();
        let [one, other] =
            marked(difference.one.as_ref().unwrap_or(&absent), difference.other.as_ref().unwrap_or(&absent));
        let (class, hint) = match difference.could_name {
            true => ("could", " <span class=\"chip bad\">could name the driver</span>"),
            false => ("", ""),
        };
        format!(
            "<tr class=\"{}\"><th scope=\"row\">{}{}</th><td data-label=\"first\">{}</td>\
             <td data-label=\"here\">{}</td></tr>\n",
            class,
            escaped(&difference.part),
            hint,
            one,
            other
        )
    });
    format!(
        "{}<table class=\"same\">\n<thead><tr><th scope=\"col\">Part</th><th scope=\"col\">In the first, {}</th>\
         <th scope=\"col\">Here</th></tr></thead>\n<tbody>\n{}</tbody>\n</table>\n",
        listed(&paths),
        name(&group.first),
        rows.collect::<String>()
    )
}

/// A refused file with the bytes around its fault.
fn refusal(number: usize, (row, refused): (&Row, &Refused), open: &str) -> String {
    let left_out = |count: usize, where_: &str| match count {
        0 => String::new(),
        _ => format!(
            "<p class=\"dim\">{} {} left out; herringnet hex prints them all.</p>\n",
            counted(count, "line"),
            where_
        ),
    };
    let lines = refused.bytes.iter().map(|(kind, line)| match *kind {
        "field" => format!("{}\n", escaped(line)),
        kind => format!("<span class=\"{}\">{}</span>\n", kind, escaped(line)),
    });
    format!(
        "<details id=\"refused-{}\"{}>\n<summary>{} <span class=\"chip bad\">refused {}</span> {}</summary>\n{}<pre>{}</pre>\n\
         {}</details>\n",
        number,
        open,
        name(&row.path),
        escaped(&refused.fault),
        escaped(&refused.why),
        left_out(refused.left_out[0], "before these"),
        lines.collect::<String>(),
        left_out(refused.left_out[1], "after these")
    )
}
