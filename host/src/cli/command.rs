//! The commands, and what each of them says of itself.

/// The commands.
#[derive(Clone, Copy, PartialEq, Eq)]
pub enum Command {
    Check,
    List,
    Target,
    Key,
    Show,
    Hex,
    Store,
    Diff,
    Audit,
    Report,
    Rewrite,
    Set,
    Move,
    Shelf,
    Salvage,
}

/// What help says of a command, beside its options.
struct Page {
    word: &'static str,
    /// What it does, in a line.
    line: &'static str,
    /// What can stand after its word.
    usage: &'static [&'static str],
    text: &'static str,
}

const PAGES: [Page; 15] = [
    Page {
        word: "check",
        line: "say of each shortcut whether it is accepted, or which field is wrong, and why",
        usage: &["[FILE].."],
        text: "\
Prints a line for each shortcut: FILE: ok and its length, or FILE: refused with the number,
the name, the position, the section, the field, its value and what is wrong with it:
  x.lnk: refused 7 PIECE at 100: LinkInfo (at 76), CommonPathSuffixOffset is 0x1B, before the
         end of the head at 0x1C
Fields have their names from MS-SHLLINK, those of a property store from MS-PROPSTORE. A structure
inside the section is named after it, and offsets in hex count from the start of what is named last.
",
    },
    Page {
        word: "list",
        line: "list the sections of a shortcut: name, start, length",
        usage: &["[FILE].."],
        text: "\
Prints ok and the length, and for each section a line with its name, its start and its length.
For a refused shortcut it prints one line: refused, number, position. With several files a line
with the file's name and a colon stands before each listing.
",
    },
    Page {
        word: "target",
        line: "print the target text",
        usage: &["[FILE].."],
        text: "\
Prints the target text on a line: the local path or the net name, a backslash where one is
missing, then the suffix. Printable ASCII stands as it is, every other byte and < as its number
in hex: <E9>. With several files each line begins with the file's name and a colon, and a colon
before a space inside the text stands as <3A>. A shortcut without a target is told of on
standard error.
",
    },
    Page {
        word: "key",
        line: "print the cache key in hex, or compare two keys",
        usage: &["[FILE]..", "--diff FILE FILE"],
        text: "\
Prints a line for each accepted shortcut: its cache key in lower-case hex, one space, the file's
name. Where standard input is the only input, the key stands alone. A refused shortcut has no key,
and is told of on standard error. Two accepted shortcuts have equal keys exactly if these are
equal: LinkFlags bit 7, the target text, the arguments, the working directory, and the text of
bytes in the first environment block (A0000001) up to its zero. What is absent differs from what
is empty. A shortcut without a target has a key too. With --shelf each FILE is a shelf, and every
entry has a line: the key, the number of the entry, and the file's name as before.

Equal keys do not mean one driver where a key does not tell it. Of such a shortcut standard error
says so, with the parts that could name a driver beside the key; line and status stay as they are:
  herringnet: x.lnk: blind: no text in the key names the driver (item list)
With --no-blind it has no line, and the status is 4 where nothing worse happened.

With --diff the keys of two FILEs are compared part by part: each part is the same, or differs
after so many characters and at these places in the files, first FILE -> second FILE:
  arguments: differs after 9 characters, at 87 in both: \"-march=rv32\" -> \"-march=rv64\"
The last line says whether the keys are equal. The status is 0 then, 5 if they differ.
",
    },
    Page {
        word: "show",
        line: "print every field and text, readable",
        usage: &["[FILE].."],
        text: "\
Prints every field and text of a shortcut, each item with its bytes in hex, and each block with
the texts and identifiers in it that can name a file, a folder or a machine; one that MS-SHLLINK does
not name has its bytes in hex. No two shortcuts that differ in what could name a driver are shown
alike. Texts stand in double quotes, a backslash as it is. In texts of bytes every byte that is not
printable ASCII stands as <E9>, in Unicode texts every character without a shape as <U+200B>; < and
a double quote stand so too. Times are UTC. With several files a line with the file's name and a
colon stands before each.
",
    },
    Page {
        word: "hex",
        line: "print the bytes with their meaning beside them, field by field",
        usage: &["[FILE].."],
        text: "\
Prints a line for each field of a shortcut, structure by structure: its place in hex, its bytes, its
name in MS-SHLLINK, of a property store in MS-PROPSTORE, and its value as show prints it:
    0034  00 10 00 00                                         FileSize                          4096
The lines lie end to end, from the first byte to the last. Bytes between the pieces of LinkInfo are
gaps, and bytes that no rule looks at are skipped. A line with more than 16 bytes is folded: two
dots stand for the others, and its length is told.
Of a refused shortcut the first line is that of check. The field found wrong begins with >, and says
what is wrong. Bytes that nobody judged begin with ?. All other lines are of what was found right
before the fault. Of a file with more than 65,536 bytes no more than 65,537 are looked at.
On a terminal lines have colours, unless NO_COLOR is set. With several files a line with the file's
name and a colon stands before each.
",
    },
    Page {
        word: "store",
        line: "print the property store: formats, numbers or names, and values",
        usage: &["[FILE].."],
        text: "\
Prints the property store of a shortcut: each storage by its format identifier, and each value in
it by its number or name and its content, as show does among the blocks. A shortcut without the
block A0000009 has no storages. Numbers, truth values, texts, times and identifiers are decoded,
after the name of their type; other types, and bytes that do not fit their type, stand in hex.
With several files a line with the file's name and a colon stands before each.
",
    },
    Page {
        word: "diff",
        line: "compare two shortcuts: every field, text, item, block and value of the store",
        usage: &["FILE FILE"],
        text: "\
Prints a line for each part of two shortcuts, in file order: PART: same: and what it is, or PART:
differs, after how many characters or bytes and at which places in the two files, and both values,
first FILE -> second FILE. Blocks are matched by signature, storages by format, values of the store
by number or name; of those that are there more than once, the first with the first, and so on.
Texts stand as show has them; of items and other bytes there are those around the first difference.
The last line counts the parts that differ and says whether the keys are equal. The status is 0
where both are the same bytes, 5 where they differ, and 1 where one of them is refused.
",
    },
    Page {
        word: "audit",
        line: "find files that share a key and differ, keys that do not tell the driver, refused files",
        usage: &["FILE..", "-r FOLDER.."],
        text: "\
Looks at many shortcuts together, and prints what is found, then one line that counts it:
  one key, one driver: files that share a key and are the same in every text that could name the
    driver or be given to it; below each what differs from the first all the same
  one key, MORE THAN ONE DRIVER POSSIBLE: the same, but a file differs from the first in what
    could name the driver or be given to it: such a line begins with !
  blind: a shortcut whose key does not tell the driver, with the parts that could name it
  refused: a shortcut that has no key, and why
  unread: a file that could not be read
  audit: how many of each
The status is 0 only if no key is shared by more than one possible driver and no file is blind,
refused or unread. Values in a property store are in no key; they count as naming the driver.
",
    },
    Page {
        word: "report",
        line: "write a page for a browser: a row for each shortcut, shared keys, refused ones with their bytes",
        usage: &["-o PAGE FILE..", "-r -o PAGE FOLDER.."],
        text: "\
Looks at many shortcuts as audit does, and writes one page in HTML: on top how many were accepted,
refused and blind and which share a key; then a row for each shortcut with its verdict, its target,
its arguments, the SHA-256 of its key and the core's name; then the files that share a key beside
each other, with what differs marked; then the refused ones, with the bytes around the fault as hex
prints them. The page needs no other file, fetches nothing and runs nothing.
As the core's name it has the values of the property store whose name has the word core in it; where
there is none, the first three texts of the store, each with its name or number.
Without -o, or with -o -, the page goes to standard output. The status is that of audit.
",
    },
    Page {
        word: "rewrite",
        line: "write the canonical form: the shortest shortcut with the same record",
        usage: &["[FILE]", "-o OUTPUT [FILE]", "--in-place FILE..", "--suffix SUFFIX FILE.."],
        text: "\
Writes the canonical form of a shortcut: the shortest shortcut that has the same record. It
goes to standard output, or to the file that is named. Nothing is written for a shortcut that
is refused. The line about a file says which it was: OUTPUT: 80 bytes, from 90 where it was
written, or FILE: 80 bytes, canonical already where it was left alone.

A file is replaced all at once: the bytes go to a new file beside it, which then takes its name.
Owner, group and permissions stay; where they cannot, the file is left as it was. A link is
followed to its file; one that leads nowhere is not replaced. If standard output cannot be
written, the files are still done.
",
    },
    Page {
        word: "set",
        line: "set parts of a shortcut or take them away, and write its canonical form",
        usage: &["[FILE]", "-o OUTPUT [FILE]", "--in-place FILE..", "--suffix SUFFIX FILE..", "--dry-run [FILE].."],
        text: "\
Sets parts of a shortcut or takes them away, and writes the canonical form of what it has become.
All other parts stay as they are. Before anything is written it is read back, and every part has to
be what was asked for, or what it was. Then it says what changed, old and new, which bits of
LinkFlags followed, and whether the key is another; where the shortcut itself goes to standard
output, it says so on standard error:
  x.lnk: 87 bytes, from 85
    arguments: \"-g0\" -> \"-g1 x\"
    key: changed, now 00000000000001050000002d6731207800000000000000000000
TEXT is UTF-8. A string gets it in Unicode where LinkFlags bit 7 is set, else in windows-1252, and
a character that is not in that is refused; HEX gives the bytes themselves, two for each Unicode
character. A text may be empty, which is not the same as taken away.

A path block holds TEXT twice, as bytes of windows-1252 and in Unicode, each of at most 259
characters, and BYTES in the stead of the first. It replaces the one of its kind, or comes last.
Bit 9 of LinkFlags follows the environment block, 12 the Darwin block, 14 the icon environment block.

--target sets local path and suffix with their Unicode twins: the path is TEXT, the suffix empty.
LinkInfo is made where it is missing, with a volume of which nothing is known, and bit 8, which
shuts it out, is cleared. Item lists, network link, relative path, environment and Darwin block can
name the old target still; while one of them does, the target is refused and they are named, unless
each is set, taken away by its --no- option or left by its --keep- option.

Files are written as rewrite writes them.
",
    },
    Page {
        word: "move",
        line: "move a shortcut of byte strings to Unicode, or home again",
        usage: &[
            "--to-unicode|--to-bytes [FILE]",
            "--to-unicode|--to-bytes -o OUTPUT [FILE]",
            "--to-unicode|--to-bytes --in-place FILE..",
            "--to-unicode|--to-bytes --suffix SUFFIX FILE..",
        ],
        text: "\
With --to-unicode a shortcut of byte strings becomes one of Unicode: its strings are translated
by windows-1252, and LinkInfo with the short head gets the long one, with local path and suffix
in Unicode too. With --to-bytes it goes home: the strings are translated back, and these two
texts are dropped, which have to be the translation. All else is the same, and what is written
is the canonical form. What cannot be moved is refused with 16 NOMAP, and the line says which
text it was, and which byte or unit at which place in the file:
  x.lnk: refused 16 NOMAP at 0: a text cannot be moved, or it is already as asked; arguments:
         the byte 0x81 at 80 is not assigned in windows-1252
Files are written as rewrite writes them.
",
    },
    Page {
        word: "shelf",
        line: "build, check, list and take apart a shelf: one file with up to 64 shortcuts",
        usage: &[
            "build -o SHELF FILE..",
            "list [SHELF]",
            "fetch NUMBER [--one] [-o FILE] [SHELF]",
            "check [SHELF]..",
            "from-old [-o SHELF] [OLD]",
            "to-old [-o OLD] [SHELF]",
        ],
        text: "\
A shelf is one file with a table and up to 64 shortcuts, each of which has to be accepted. They
have the numbers from 0 on.
  build     makes a shelf of the FILEs, in their order
  list      prints ok and the number of entries, then for each its number, start and length;
            for a refused shelf one line: refused, number, position
  fetch     writes the entry of this number
  check     prints a line for each SHELF: ok and the number of its entries, or why it is refused
  from-old  makes a shelf of the old form: a length in four bytes and a shortcut, again and again
  to-old    makes the old form again
What build, fetch, from-old and to-old make goes to standard output, or to the file after -o, which
is replaced all at once. All of them test every entry; fetch --one tests of the entries only the
one that it writes. A refusal with ENTRY has the number of the first bad entry as its position.
",
    },
    Page {
        word: "salvage",
        line: "write what can be saved of a damaged shortcut",
        usage: &["[FILE]", "-o OUTPUT [FILE]", "--in-place --keep SUFFIX FILE..", "--suffix SUFFIX FILE.."],
        text: "\
Writes what still reads of a shortcut that was cut or padded, or has a broken block: without the
bytes after its terminal block (9), or up to the block at fault and with a new terminal block (2,
8, 14, 15). An accepted shortcut is copied. All other refused ones are lost (19), and nothing is
written for them. The line about a file says what it was refused with and where, and of one that
is not lost how many of its bytes are kept and dropped, and which blocks went; with standard
output it is on standard error:
  x.lnk: refused 2 CUT at 88, kept 88, dropped 11, gone: A0000004

What was saved is accepted, but it is not what was sent: a block that names the environment may be
among those that went, and the key with it. Files are written as rewrite writes them, in place
only with a copy of the damaged file beside it.
",
    },
];

impl Command {
    /// All of them, each at its number.
    pub const ALL: [Command; 15] = [
        Command::Check,
        Command::List,
        Command::Target,
        Command::Key,
        Command::Show,
        Command::Hex,
        Command::Store,
        Command::Diff,
        Command::Audit,
        Command::Report,
        Command::Rewrite,
        Command::Set,
        Command::Move,
        Command::Shelf,
        Command::Salvage,
    ];

    /// The command with this word.
    pub fn of(word: &str) -> Option<Command> {
        Command::ALL.into_iter().find(|command| command.word() == word)
    }

    fn page(self) -> &'static Page {
        &PAGES[self as usize]
    }

    /// The word of the command line.
    pub fn word(self) -> &'static str {
        self.page().word
    }

    /// What it does, in a line.
    pub fn line(self) -> &'static str {
        self.page().line
    }

    /// The ways to call it, from its word on. The usage of `shelf` has its options, since they come after the task.
    pub fn calls(self) -> Vec<String> {
        let options = if self == Command::Shelf { "" } else { "[OPTION].. " };
        self.page().usage.iter().map(|usage| format!("{} {}{}", self.word(), options, usage)).collect()
    }

    /// What it does, at length.
    pub fn text(self) -> &'static str {
        self.page().text
    }

    /// Whether it writes files, so that it goes on when nobody reads its lines.
    pub fn writes(self) -> bool {
        self == Command::Report || self.writes_shortcuts()
    }

    /// Whether it writes shortcuts, or shelves of them.
    pub fn writes_shortcuts(self) -> bool {
        matches!(self, Command::Rewrite | Command::Set | Command::Move | Command::Shelf | Command::Salvage)
    }

    /// Whether a refusal is its answer, and not a complaint.
    pub fn answers_refusals(self) -> bool {
        matches!(self, Command::Check | Command::List | Command::Hex)
    }
}
