//! `report`: the page is well formed and fetches nothing, has every file, and what comes from files stays text. Where a
//! browser is installed, the page is opened in it.
mod common;
mod inputs;

use common::shortcuts::{z, Shortcuts};
use common::{text, SAMPLE};
use herringnet::audit::Audit;
use herringnet::record::{Header, Info, InfoUnicode, Label, Local, Record};
use herringnet::store::{Storage, Store, NAMED};
use herringnet::{Profile, StringName, Text};
use std::collections::HashSet;
use std::env;
use std::fs;
use std::path::PathBuf;
use std::process::{Command, Stdio};

/// A shortcut of a driver with these arguments and a core's name in its store.
fn core(arguments: &str, core: &str, write: u64) -> Vec<u8> {
    let units = |text: &str| text.encode_utf16().chain([0]).flat_map(u16::to_le_bytes).collect::<Vec<u8>>();
    let (name, text) = (units("core"), units(core));
    let mut raw = [&b"\x1F\0\0\0"[..], &(text.len() as u32 / 2).to_le_bytes(), &text].concat();
    raw.resize((raw.len() + 3) / 4 * 4, 0);
    let block = Store::default().with(Storage::new(NAMED).with_name(&name, &raw)).to_block().unwrap();
    let local = Local { drive: 3, serial: 7, label: Label::Byte(b""), path: br"C:\tools\cc.exe" };
    let info = Some(Info::default().with_local(local));
    let header = Header { flags: 0x80, write, ..Header::default() };
    let mut record = Record { header, info, blocks: &block, ..Record::default() };
    record.set(StringName::Arguments, arguments).unwrap();
    record.to_vec().unwrap()
}

/// A shortcut that says nothing but an item.
fn listed(item: &[u8]) -> Vec<u8> {
    let item = [&(item.len() as u16 + 2).to_le_bytes()[..], item].concat();
    Record { items: Some(&item), ..Record::default() }.to_vec().unwrap()
}

/// Markup, an entity, quotes, a mark that turns the direction, and one that has no shape.
const HOSTILE: &str = "</td></table><script>alert('1')</script>&amp;\"x\"\u{202E}cba\u{2066}\u{200B}<!--";

/// A shortcut with such a text in every text.
fn hostile() -> Vec<u8> {
    let units: Vec<u8> = HOSTILE.encode_utf16().flat_map(u16::to_le_bytes).collect();
    let bytes = b"</span><img src=x onerror=alert(1)>\xE2\x80\xAE&lt;";
    let local = Local { drive: 3, serial: 7, label: Label::Unicode(&units), path: bytes };
    let unicode = InfoUnicode { local: &units, suffix: &units, further: b"" };
    let info = Info::default().with_local(local).with_suffix(bytes).with_unicode(unicode);
    let header = Header { flags: 0x80, ..Header::default() };
    let text = || Some(Text::of(true, &units));
    let mut record = Record { header, info: Some(info), ..Record::default() };
    for name in StringName::ALL {
        *record.string_mut(name) = text();
    }
    let block = Store::default()
        .with(
            Storage::new(NAMED)
                .with_name(&units, b"\x13\0\0\0\x07\0\0\0")
                .with_name(b"<", b"\x1E\0\0\0\x02\0\0\0<\0\0\0"),
        )
        .to_block()
        .unwrap();
    record.blocks = &block;
    record.to_vec().unwrap()
}

/// A folder with one of everything.
fn everything(name: &str) -> Shortcuts {
    let s = Shortcuts::none(name);
    s.put("1.lnk", &core("-march=rv32", "e20", 1));
    s.put("2.lnk", &core("-march=rv64", "u54", 1));
    s.put("3.lnk", &core("-march=rv64", "u54", 2));
    s.put("4.lnk", &core("-march=rv64", "u54", 1));
    s.put("5.lnk", &core("-march=rv64 -g", "u54", 1));
    s.put("6.lnk", &core("-march=rv64 -g", "u74", 1));
    s.put("7.lnk", &listed(b"rv32"));
    s.put("8.lnk", &listed(b"rv64"));
    s.put("9.lnk", &z()[..79]);
    s
}

/// The tags of a page, in order, each with its attributes, and the text between them, with entities as characters.
fn taken_apart(page: &str) -> (Vec<(String, Vec<(String, String)>)>, String) {
    let (mut tags, mut said) = (Vec::new(), String::new());
    let mut rest = page;
    while let Some(start) = rest.find('<') {
        said += &rest[..start];
        let end = start + rest[start..].find('>').expect("a tag that is not closed");
        let tag = &rest[start + 1..end];
        rest = &rest[end + 1..];
        if tag.starts_with('!') {
            assert_eq!(tag, "!DOCTYPE html");
            continue;
        }
        let (name, attributes) = tag.split_once(' ').unwrap_or((tag, ""));
        tags.push((name.to_string(), pairs(attributes)));
        if name == "style" {
            rest = &rest[rest.find("</style>").unwrap()..];
        }
    }
    said += rest;
    let plain = |text: &str| {
        let entities = [("&lt;", "<"), ("&gt;", ">"), ("&quot;", "\""), ("&#39;", "'")];
        let text = entities.iter().fold(text.to_string(), |text, (entity, c)| text.replace(entity, c));
        text.replace("&amp;", "&")
    };
    (tags, plain(&said))
}

/// The attributes of a tag, all of which are quoted but `open`.
fn pairs(attributes: &str) -> Vec<(String, String)> {
    let mut found = Vec::new();
    let mut rest = attributes.trim();
    while !rest.is_empty() {
        if let Some(after) = rest.strip_prefix("open") {
            found.push(("open".to_string(), String::new()));
            rest = after.trim_start();
            continue;
        }
        let (name, after) = rest.split_once("=\"").expect("an attribute without quotes");
        let (value, after) = after.split_once('"').expect("a value that is not closed");
        found.push((name.to_string(), value.to_string()));
        rest = after.trim_start();
    }
    found
}

/// The tags and attributes that a page may have.
const TAGS: &str = "html head title style body header main footer section h1 h2 p ul li a b br i div span mark table \
                    thead tbody tr th td details summary pre meta";
const ATTRIBUTES: &str = "lang charset name content http-equiv class id href scope open colspan data-label";

/// The page is well formed, runs and fetches nothing, and its links lead somewhere. Gives its text.
fn well_formed(page: &str) -> String {
    let (tags, said) = taken_apart(page);
    let is_one = |words: &str, word: &str| words.split_whitespace().any(|known| known == word);
    let (mut open, mut ids, mut links) = (Vec::new(), HashSet::new(), Vec::new());
    for (tag, pairs) in &tags {
        if let Some(closed) = tag.strip_prefix('/') {
            assert_eq!(open.pop(), Some(closed));
            continue;
        }
        assert!(is_one(TAGS, tag), "there is a tag {}", tag);
        open.extend(Some(&tag[..]).filter(|tag| !["meta", "br"].contains(tag)));
        for (name, value) in pairs {
            assert!(is_one(ATTRIBUTES, name), "there is an attribute {}", name);
            match &name[..] {
                "id" => assert!(ids.insert(value), "{} is there twice", value),
                "href" => links.push(value.strip_prefix('#').expect("a link leaves the page")),
                _ => {}
            }
        }
    }
    assert!(open.is_empty(), "{:?} is left open", open);
    let lost: Vec<&&str> = links.iter().filter(|link| !ids.contains(&link.to_string())).collect();
    assert!(lost.is_empty(), "{:?} lead nowhere", lost);
    inert(page);
    said
}

/// The page names nothing outside itself, and has no character that is not seen or that turns the direction.
fn inert(page: &str) {
    for word in ["http:", "https:", "url(", "@import", "javascript:"] {
        assert!(!page.contains(word), "the page has {}", word);
    }
    let turns = |c| ('\u{202A}'..='\u{202E}').contains(&c) || ('\u{2066}'..='\u{2069}').contains(&c);
    let is_unseen = |c: char| c.is_control() || "\u{200B}\u{200E}\u{200F}\u{FEFF}".contains(c);
    assert_eq!(page.chars().find(|&c| c != '\n' && (is_unseen(c) || turns(c))), None);
}

/// The page about a folder.
fn page_of(s: &Shortcuts, status: i32) -> String {
    let said = s.run(&["report", "-r", "."]);
    assert_eq!(said.status, status, "{}", said.err);
    text(&said.out).to_string()
}

/// How often a text is in another.
fn count(page: &str, part: &str) -> usize {
    page.matches(part).count()
}

#[test]
fn the_page_has_all_that_was_found() {
    let s = everything("report");
    let page = page_of(&s, 5);
    let said = well_formed(&page);
    for (tile, words) in [
        ("9", "files"),
        ("8", "accepted"),
        ("1", "refused"),
        ("2", "blind"),
        ("3", "keys shared"),
        ("2", "of these with more"),
        ("0", "could not be read"),
    ] {
        assert!(said.contains(&format!("{}{}", tile, words)), "{} {}", tile, words);
    }
    for number in 1..=9 {
        assert!(page
            .contains(&format!("<td class=\"file\" data-label=\"File\"><span class=\"data\">./{}.lnk</span>", number)));
    }
    assert!(said.contains("To look at: 2 keys with more than one driver possible, 2 blind shortcuts, 1 refused file"));
    // Rows: target, arguments, the digest of the key, and the core.
    assert_eq!(count(&said, "\"C:\\tools\\cc.exe\""), 6);
    assert_eq!(count(&said, "\"-march=rv32\""), 1);
    assert_eq!(count(&page, ">&quot;core&quot;: &quot;u54&quot;<"), 4);
    let key = herringnet::key(&s.get("1.lnk")).unwrap();
    let digest = format!("<span class=\"data\">{}</span>", &digest(&key)[..16]);
    assert_eq!(count(&page, &digest), 1);
    // Keys: what could be two drivers comes first, and what differs is marked.
    let places = ["id=\"key-1\" open>", "id=\"key-2\" open>", "id=\"key-3\">"].map(|id| page.find(id).unwrap());
    assert!(places[0] < places[1] && places[1] < places[2]);
    assert!(page.contains("VT_LPWSTR &quot;u<mark>5</mark>4&quot;") && page.contains("&quot;u<mark>7</mark>4&quot;"));
    assert!(page.contains("rv<mark>32</mark>&quot;") && page.contains("rv<mark>64</mark>&quot;"));
    assert_eq!(count(&page, "<tr class=\"could\">"), 2);
    assert!(said.contains("The same bytes:\n\n./4.lnk"));
    // Refused ones have their bytes, with the fault marked.
    assert!(page.contains("<span class=\"wrong\">&gt; 004C  00 00 00 "));
    assert!(said.contains("refused 2 CUT at 76: terminal block (at 76), TerminalBlock is cut off"));
}

/// The SHA-256 of bytes, by the system's own program.
fn digest(bytes: &[u8]) -> String {
    let file = env::temp_dir().join(format!("herringnet-report-{}", std::process::id()));
    fs::write(&file, bytes).unwrap();
    let said = Command::new("sha256sum").arg(&file).output().unwrap();
    fs::remove_file(&file).unwrap();
    text(&said.stdout).split(' ').next().unwrap().to_string()
}

#[test]
fn markup_and_direction_marks_stay_text() {
    let s = Shortcuts::none("report_hostile");
    let shortcut = hostile();
    s.put("a.lnk", &shortcut);
    let name = HOSTILE.replace('/', "");
    s.put(&format!("{}.lnk", name), &shortcut);
    s.put_raw(b"caf\xE9\n<b>.lnk", &shortcut[..shortcut.len() - 1]);
    let mut other = shortcut.clone();
    other[28] = 1;
    s.put("b.lnk", &other);
    let page = page_of(&s, 1);
    let said = well_formed(&page);
    assert!(said.contains(
        "./<3C>td><3C>table><3C>script>alert('1')<3C>script>&amp;\"x\"<U+202E>cba<U+2066><U+200B><3C>!--.lnk"
    ));
    assert!(said.contains("./caf<E9><U+000A><3C>b>.lnk"));
    assert!(said.contains("\"<3C>/span><3C>img src=x onerror=alert(1)><E2><80><AE>&lt;"));
    assert!(said.contains(
        "<U+003C>/td><U+003C>/table><U+003C>script>alert('1')<U+003C>/script>&amp;<U+0022>x<U+0022><U+202E>cba"
    ));
    assert!(!page.contains("<script") && !page.contains("<img") && !page.contains("<b>."));
}

#[test]
fn it_is_written_to_a_file_or_to_standard_output() {
    let s = everything("report_output");
    let page = page_of(&s, 5);
    let said = s.run(&["report", "-r", "-o", "page.html", "."]);
    assert_eq!((said.status, text(&s.get("page.html")) == page), (5, true));
    let first = format!("page.html: {} bytes; audit: 9 files: 8 accepted, 1 refused, 0 unread, 2 blind, ", page.len());
    assert!(text(&said.out).starts_with(&first), "{}", text(&said.out));
    // Again, over the page that is there, with files that cannot be read.
    let said = s.run(&["report", "-o", "page.html", "1.lnk", "none.lnk", "."]);
    assert_eq!((said.status, said.err.as_str()), (3, ""));
    let page = text(&s.get("page.html")).to_string();
    let told = well_formed(&page);
    assert!(told.contains("none.lnk: No such file or directory") && told.contains(".: it is a folder"));
    let said = s.run(&["report", "-o", "none/page.html", "1.lnk"]);
    assert_eq!(said.status, 3);
    assert!(said.err.starts_with("herringnet: none/page.html: cannot be written"), "{}", said.err);
    let clean = s.run(&["report", "1.lnk", "2.lnk"]);
    assert_eq!(clean.status, 0);
    let told = well_formed(text(&clean.out));
    assert!(told.contains("Nothing to look at") && told.contains("No two files share a key."));
    for words in [&["report"][..], &["report", "-"], &["report", "--json", "1.lnk"], &["report", "-r"]] {
        assert_eq!(s.run(words).status, 2, "{:?}", words);
    }
    let old = s.run(&["report", "--profile", "95", "1.lnk"]);
    assert!(text(&old.out).contains(", profile 95, "));
}

/// The counts on the page are those of the audit, for inputs of the comparison, refused ones with long bodies among them.
#[test]
fn a_thousand_shortcuts() {
    let s = Shortcuts::none("report_thousand");
    (0..1_000).for_each(|number| s.put(&format!("{:04}.lnk", number), &inputs::input(number)));
    let audit = Audit::of((0..1_000).map(|number| s.path(&format!("{:04}.lnk", number))), Profile::Strict);
    let page = page_of(&s, if audit.mixed() > 0 { 5 } else { 1 });
    let said = well_formed(&page);
    let refused = audit.refused.len();
    let counts = [
        (audit.accepted, "accepted"),
        (refused, "refused"),
        (audit.blind.len(), "blind: the key does not tell the driver"),
        (audit.groups.len(), "keys shared by several files"),
        (audit.mixed(), "of these with more than one driver possible"),
    ];
    assert!(said.contains("\n1,000files\n"));
    for (number, words) in counts {
        assert!(number < 1_000 && said.contains(&format!("\n{}{}\n", number, words)), "{} {}", number, words);
    }
    assert_eq!((count(&page, "<details id=\"refused-"), count(&page, "<span class=\"wrong\">")), (refused, refused));
    assert_eq!(count(&page, "<td class=\"file\""), 1_000);
    assert!(page.len() < 8_000_000, "{}", page.len());
}

#[test]
fn long_refused_shortcuts_are_cut_to_what_stands_around_the_fault() {
    let s = Shortcuts::none("report_long");
    let items = b"\x02\0".repeat(20_000);
    let long = Record { items: Some(&items), ..Record::default() }.to_vec().unwrap();
    s.put("long.lnk", &long[..long.len() - 1]);
    let page = page_of(&s, 1);
    let said = well_formed(&page);
    assert!(page.len() < 40_000, "{}", page.len());
    assert!(said.contains(" lines before these left out; herringnet hex prints them all."));
    assert!(said.contains("> 9C90  00 00 00 "), "{}", said);
}

/// The browser, if there is one on the path.
fn browser() -> Option<PathBuf> {
    let path = env::var_os("PATH")?;
    let names = ["chromium", "chromium-browser", "google-chrome"];
    let mut found = env::split_paths(&path).flat_map(|folder| names.map(|name| folder.join(name)));
    found.find(|file| file.is_file())
}

/// A page that shows the other one in a window of some width, and says in its title: whether that need not be moved
/// sideways, how many rows it has, how many elements that a text could have made, and how its rows are laid out.
const MEASURE: &str = "<!DOCTYPE html><title>none</title><body style=\"margin:0\">\
    <iframe id=\"f\" src=\"PAGE\" style=\"width:WIDTHpx;height:900px;border:0\"></iframe><script>\
    f.onload = () => { const d = f.contentDocument, e = d.documentElement; \
    document.title = [e.scrollWidth <= e.clientWidth, d.querySelectorAll('.all tbody tr').length, \
    d.querySelectorAll('script, img').length, getComputedStyle(d.querySelector('.all tr')).display].join(' '); }\
    </script>";

#[test]
fn a_browser_shows_it() {
    let browser = match browser() {
        Some(browser) => browser,
        None => return println!("left out: there is no chromium on the path"),
    };
    let ten = everything("report_browser_ten");
    ten.put("hostile.lnk", &hostile());
    let many = Shortcuts::none("report_browser_many");
    (0..1_000).for_each(|number| many.put(&format!("{:04}.lnk", number), &inputs::input(number)));
    for (s, rows) in [(ten, 10), (many, 1_000)] {
        assert_ne!(s.run(&["report", "-r", "-o", "page.html", "."]).status, 3);
        for (width, display) in [(1400, "table-row"), (420, "block")] {
            s.put("measure.html", MEASURE.replace("PAGE", "page.html").replace("WIDTH", &width.to_string()).as_bytes());
            let said = Command::new("timeout")
                .arg("200")
                .arg(&browser)
                .args(["--headless=new", "--no-sandbox", "--disable-gpu", "--allow-file-access-from-files"])
                .args(["--virtual-time-budget=60000", "--dump-dom"])
                .arg(format!("--user-data-dir={}", s.path("browser").display()))
                .arg(format!("file://{}", s.path("measure.html").display()))
                .stdin(Stdio::null())
                .output()
                .unwrap();
            let title = format!("<title>true {} 0 {}</title>", rows, display);
            let dom = String::from_utf8_lossy(&said.stdout);
            assert!(dom.contains(&title), "{} at {}: {}", rows, width, &dom[..dom.len().min(300)]);
        }
    }
}

/// One shortcut alone, without arguments and without a store.
#[test]
fn the_sample_has_its_row() {
    let s = Shortcuts::none("report_sample");
    s.put("a.lnk", SAMPLE);
    let said = well_formed(&page_of(&s, 0));
    assert!(said.contains("1 shortcut\n") && said.contains("\"C:\\test\\a.txt\"none"));
}
