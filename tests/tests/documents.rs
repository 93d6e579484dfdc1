//! The documents name edits, proofs and definitions: each has to be there. A refusal, an export and a limit have one name, in whatever language.

use examiner::RefusalKind;
use std::collections::{BTreeMap, BTreeSet};
use std::ffi::OsStr;
use std::fs;
use std::path::{Path, PathBuf};

fn root() -> PathBuf {
    Path::new(env!("CARGO_MANIFEST_DIR")).join("..")
}

/// What stands between back quotes.
fn quoted(text: &str) -> impl Iterator<Item = &str> {
    text.split('`').skip(1).step_by(2)
}

/// The file or folder that a quoted path names, if it names one below `crates/`.
fn named(quoted: &str) -> Option<String> {
    let room = quoted.split('/').nth(1)?;
    match room {
        "must-fail" => Some(format!("{quoted}.edit")),
        "proofs" | "specs" | "src" => Some(quoted.to_string()),
        _ => None,
    }
}

#[test]
fn what_the_documents_name_is_there() {
    let root = root();
    let mut seen = 0;
    for page in ["README.md", "docs/DECISIONS.md", "docs/FORMS.md", "docs/IMPOSTORS.md", "docs/PROOF-MAP.md"] {
        let text = fs::read_to_string(root.join(page)).expect(page);
        for path in quoted(&text).filter_map(named) {
            assert!(root.join("crates").join(&path).exists(), "{page} names crates/{path}");
            seen += 1;
        }
    }
    assert!(seen > 40, "only {seen} paths were found in the documents");
}

/// A name that a line declares, and whether it is a record's, whose fields follow further in.
type Declaration<'a> = (&'a str, bool);

fn after<'a>(line: &'a str, starts: &[&str]) -> Option<&'a str> {
    starts.iter().find_map(|start| line.strip_prefix(start))
}

/// In antt: a public law, definition, record or field, or a constructor.
fn in_antt(line: &str) -> Option<Declaration<'_>> {
    let Some(item) = after(line, &["pub ", "abbrev pub ", "unfoldable pub "]) else {
        let (name, _) = line.split_once(" : ")?;
        return name.starts_with(char::is_uppercase).then_some((name, false));
    };
    let record = after(item, &["record ", "data "]);
    let name = record.unwrap_or(item).split(' ').next()?.trim_matches(['«', '»']);
    (name != "mod").then_some((name, record.is_some()))
}

/// In Rattle: a function, type or constant, or a field or parameter on a line of its own.
fn in_rattle(line: &str) -> Option<Declaration<'_>> {
    let line = after(line, &["pub extern \"C\" ", "pub "]).unwrap_or(line);
    let record = after(line, &["struct ", "enum "]);
    let item = record.or_else(|| after(line, &["fn ", "const ", "type "]));
    let name = item.unwrap_or(line).split(|c: char| !c.is_alphanumeric() && c != '_').next()?;
    (item.is_some() || line[name.len()..].starts_with(": ")).then_some((name, record.is_some()))
}

/// Stands behind a crate's name in `crates.txt` if it is a static library.
const STATIC: &str = "staticlib";

/// The crates, and where each name is declared: its file below `crates/`, and of a field its record behind that.
struct Declared {
    crates: Vec<String>,
    homes: BTreeMap<String, Vec<PathBuf>>,
}

impl Declared {
    fn new(root: &Path) -> Declared {
        let list = fs::read_to_string(root.join("crates.txt")).expect("crates.txt");
        let words = list.lines().filter(|line| !line.starts_with('#')).flat_map(|line| line.split([':', ' ']));
        let crates = words.filter(|word| *word != STATIC).map(String::from);
        let mut declared = Declared { crates: crates.collect(), homes: BTreeMap::new() };
        declared.look(&root.join("crates"), Path::new(""));
        declared
    }

    fn look(&mut self, crates: &Path, folder: &Path) {
        for entry in fs::read_dir(crates.join(folder)).expect("a folder below crates/") {
            let file = folder.join(entry.expect("an entry of it").file_name());
            let text = || fs::read_to_string(crates.join(&file)).expect("a text");
            let word = |part: Option<&OsStr>| part.and_then(OsStr::to_str).unwrap_or_default().to_string();
            match word(file.extension()).as_str() {
                // what `rt` made of the crate holds its texts again, as they once were
                _ if file.ends_with("out") => {}
                _ if crates.join(&file).is_dir() => self.look(crates, &file),
                "antt" => self.lines(&file, &text(), in_antt),
                "rt" => self.lines(&file, &text(), in_rattle),
                "edit" => self.homes.entry(word(file.file_stem())).or_default().push(file),
                _ => {}
            }
        }
    }

    fn lines(&mut self, file: &Path, text: &str, declares: fn(&str) -> Option<Declaration<'_>>) {
        let mut records: Vec<(usize, &str)> = Vec::new();
        for line in text.lines().filter(|line| !line.is_empty()) {
            let inner = line.trim_start();
            let depth = line.len() - inner.len();
            records.retain(|(outer, _)| *outer < depth);
            if let Some((name, is_record)) = declares(inner) {
                let home = records.last().map_or(file.to_path_buf(), |(_, record)| file.join(record));
                self.homes.entry(name.to_string()).or_default().push(home);
                if is_record {
                    records.push((depth, name));
                }
            }
        }
    }

    fn is_crate(&self, name: &str) -> bool {
        self.crates.iter().any(|listed| listed == name)
    }

    fn of(&self, name: &str) -> &[PathBuf] {
        self.homes.get(name).map_or(&[], Vec::as_slice)
    }

    /// Whether a name is declared, and in the place if one is given: a path, a crate's code, or a record.
    fn has(&self, name: &str, place: Option<&str>) -> bool {
        if let Some((record, field)) = name.split_once('.') {
            return self.has(record, place) && self.has(field, Some(record));
        }
        let places = match place {
            None => return !self.of(name).is_empty() || self.is_crate(name),
            Some(path) if path.contains('/') => vec![path.trim_start_matches("crates/").into()],
            Some(listed) if self.is_crate(listed) => vec![Path::new(listed).join("src")],
            Some(record) => self.of(record).iter().map(|file| file.join(record)).collect(),
        };
        self.of(name).iter().any(|home| places.iter().any(|place| home.starts_with(place)))
    }
}

/// Whether quoted text is a name: no path, file, number, word of the language or piece of code.
fn is_name(quoted: &str) -> bool {
    quoted.starts_with(char::is_alphabetic)
        && quoted.chars().all(|c| c.is_alphanumeric() || "-_.".contains(c))
        && ![".antt", ".md"].iter().any(|kind| quoted.ends_with(kind))
        && !["requires", "ensures"].contains(&quoted)
}

/// What of a page is read by itself: paragraphs, and cells of tables, with the heads of their columns.
fn passages(text: &str) -> Vec<(String, String)> {
    let cells = |row: &str| row.trim_matches('|').split('|').map(|cell| cell.trim().to_string()).collect::<Vec<_>>();
    let mut passages = Vec::new();
    for block in text.split("\n\n") {
        if block.starts_with('|') {
            let mut rows = block.lines().map(cells);
            let heads = rows.next().unwrap_or_default();
            passages.extend(rows.flat_map(|row| heads.clone().into_iter().zip(row)));
        } else {
            passages.push((String::new(), block.split_whitespace().collect::<Vec<_>>().join(" ")));
        }
    }
    passages
}

/// Where a passage, cut at its back quotes, says that the name in part i is declared: behind the name, or behind the list of names that it is in.
/// "There" is the path named last.
fn place(parts: &[&str], i: usize, there: &str) -> Option<String> {
    let (gap, next) = (parts[i + 1], parts.get(i + 2).copied().unwrap_or_default());
    let links = [" in ", " of "];
    if links.contains(&parts[i - 1]) && is_name(parts[i - 2]) {
        return None; // a place itself
    }
    if [", ", " and ", ", and ", " or "].contains(&gap) && is_name(next) {
        return place(parts, i + 2, there);
    }
    let linked = links.contains(&gap);
    if (linked && is_name(next)) || ((linked || gap == " (") && next.contains('/')) {
        return Some(next.to_string());
    }
    if gap.starts_with(" there") {
        return Some(there.to_string());
    }
    let (module, _) = gap.strip_prefix(" (")?.split_once(')')?;
    module.chars().all(char::is_alphabetic).then(|| format!("model/specs/{module}.antt"))
}

#[test]
fn names_in_the_documents_are_declared() {
    let root = root();
    let declared = Declared::new(&root);
    let (mut seen, mut wrong) = (0, Vec::new());
    for page in ["docs/FORMS.md", "docs/IMPOSTORS.md", "docs/PROOF-MAP.md"] {
        let text = fs::read_to_string(root.join(page)).expect(page);
        let mut there = String::new();
        for (head, passage) in passages(&text) {
            let parts: Vec<&str> = passage.split('`').collect();
            assert!(parts.len() % 2 == 1, "{page}: a back quote is missing in {passage}");
            for i in (1..parts.len()).step_by(2) {
                if parts[i].contains('/') {
                    there = parts[i].to_string();
                }
                if !is_name(parts[i]) {
                    continue;
                }
                // A definition without a path is in the model.
                let place = place(&parts, i, &there).or_else(|| (head == "definition").then(|| "model/".to_string()));
                if !declared.has(parts[i], place.as_deref()) {
                    wrong.push(format!("{page}: {} in {}", parts[i], place.as_deref().unwrap_or("crates/")));
                }
                seen += 1;
            }
        }
    }
    assert!(wrong.is_empty(), "cited and not declared:\n{}", wrong.join("\n"));
    assert!(seen > 175, "only {seen} names were found in the documents");
}

/// The names that follow their numbers, 1, 2, .., in lines of a text.
fn numbered<'a>(text: &'a str, name: impl Fn(&'a str, usize) -> Option<&'a str>) -> Vec<&'a str> {
    let mut names: Vec<&str> = Vec::new();
    for line in text.lines() {
        names.extend(name(line, names.len() + 1));
    }
    names
}

#[test]
fn a_refusal_has_one_name() {
    let root = root();
    let header = fs::read_to_string(root.join("include/examiner.h")).expect("the header");
    let source = fs::read_to_string(root.join("crates/model/src/lib.rt")).expect("the model");
    let rust: Vec<String> = RefusalKind::ALL.iter().map(|kind| format!("{kind:?}")).collect();
    let in_header = numbered(&header, |line, number| {
        let mut words = line.split_whitespace();
        (words.next() == Some("*") && words.next() == Some(&number.to_string())).then(|| words.next()).flatten()
    });
    let in_source = numbered(&source, |line, number| {
        let arm = line.trim().strip_prefix("Refusal::")?;
        arm.strip_suffix(&format!("(_) => {number},"))
    });
    assert_eq!(in_header, rust, "in include/examiner.h");
    assert_eq!(in_source, rust, "in crates/model/src/lib.rt");
}

/// The words that stand directly behind a mark, up to what is no part of a name.
fn names_behind<'a>(text: &'a str, mark: &'a str) -> BTreeSet<&'a str> {
    let name = |rest: &'a str| rest.split(|c: char| !c.is_alphanumeric() && c != '_').next().unwrap_or_default();
    text.split(mark).skip(1).map(name).collect()
}

#[test]
fn an_export_is_in_the_library_the_header_and_the_wrapper() {
    let text = |path: &str| fs::read_to_string(root().join(path)).expect(path);
    let (source, header, wrapper) = (text("crates/examiner_c/src/lib.rt"), text("include/examiner.h"), text("bindings/rust/src/raw.rs"));
    let exports = names_behind(&source, "pub extern \"C\" fn ");
    assert!(exports.len() >= 8, "only {exports:?}");
    assert_eq!(names_behind(&text("crates/examiner/src/lib.rt"), "\npub fn "), exports, "in crates/examiner/src/lib.rt");
    assert_eq!(names_behind(&header, "\nuint32_t "), exports, "in include/examiner.h");
    assert_eq!(names_behind(&wrapper, "pub fn "), exports, "in bindings/rust/src/raw.rs");
}

/// The number behind a mark that begins a line, up to what ends it.
fn number_behind(text: &str, mark: &str, end: &str) -> Option<usize> {
    text.lines().find_map(|line| line.strip_prefix(mark)?.strip_suffix(end)?.parse().ok())
}

#[test]
fn the_library_the_header_and_the_wrapper_have_the_same_limits() {
    let text = |path: &str| fs::read_to_string(root().join(path)).expect(path);
    let header = text("include/examiner.h");
    let source = text("crates/model/src/places.rt") + &text("crates/model/src/limits.rt");
    let in_header = |name: &str| number_behind(&header, &format!("#define EXAMINER_MOST_{name} "), "");
    let in_source = |name: &str| number_behind(&source, &format!("pub const MOST_{name}: usize = "), ";");
    let limits = [
        ("FUNCTIONS", examiner::MOST_FUNCTIONS),
        ("VERTICES", examiner::MOST_VERTICES),
        ("EDGES", examiner::MOST_EDGES),
        ("LOOPS", examiner::MOST_LOOPS),
        ("VISITS", examiner::MOST_VISITS as usize),
        ("SENTENCE", examiner::MOST_SENTENCE),
    ];
    for (name, most) in limits {
        assert_eq!((in_header(name), in_source(name)), (Some(most), Some(most)), "MOST_{name} of the header and of the library");
    }
    // the header and the wrapper alone have these by such a name
    assert_eq!(in_header("SHOWN"), Some(examiner::MOST_SHOWN));
    assert_eq!(in_header("CHECK"), Some(examiner::MOST_CHECK as usize));
    // the header has it as the last row of a table
    assert_eq!(number_behind(&source, "pub const LAST_REFUSAL: u32 = ", ";"), Some(RefusalKind::ALL.len()));
}

/// The crates that a crate stands on, itself first, with the libraries of the kit that each uses.
fn reached<'a>(list: &'a str, from: &'a str) -> Vec<(&'a str, Vec<&'a str>)> {
    let name = |words: &'a str| words.split(' ').next().unwrap_or_default();
    let uses: BTreeMap<&str, Vec<&str>> =
        list.lines().filter_map(|line| line.split_once(':')).map(|(words, used)| (name(words), used.split_whitespace().collect())).collect();
    let mut names = vec![from];
    let mut at = 0;
    while at < names.len() {
        for used in &uses[names[at]] {
            if uses.contains_key(used) && !names.contains(used) {
                names.push(used);
            }
        }
        at += 1;
    }
    names.into_iter().map(|name| (name, uses[name].iter().copied().filter(|used| !uses.contains_key(used)).collect())).collect()
}

/// What gives a handle by which a program can write: `main` is handed it, and each function that passes it on names it.
const HANDLES: [&str; 6] = ["HostRuntime", "Runtime", "Print", "Files", "Stdout", "Stderr"];

/// What stands in each call that can write, and in some that cannot.
const WRITES: [&str; 12] =
    [".write", "write!", "writeln!", ".print", "print!", "println!", "writer(", "stdout", "stderr", "create", "OpenOptions", "fs::"];

/// What has such a mark and writes nowhere, or to standard error.
const PASSED: [&str; 3] = ["eprint!", "eprintln!", "fs::open("];

/// A contract cannot say what a program writes: PROOF-MAP rests on it that `print` of `sheet`, which requires the slip, has the only call on standard output.
#[test]
fn one_call_writes_to_standard_output() {
    let list = fs::read_to_string(root().join("crates.txt")).expect("crates.txt");
    let (mut writers, mut writes) = (Vec::new(), Vec::new());
    for (name, libraries) in reached(&list, "marksheet") {
        assert!(libraries.is_empty(), "{name} uses libraries of the kit, which may write: {libraries:?}");
        for entry in fs::read_dir(root().join("crates").join(name).join("src")).expect("its sources") {
            let text = fs::read_to_string(entry.expect("a source").path()).expect("a text");
            if !text.split(|c: char| !c.is_alphanumeric()).any(|word| HANDLES.contains(&word)) {
                continue;
            }
            writers.push(name);
            let code = text.lines().map(str::trim).filter(|line| !["//", "use "].iter().any(|start| line.starts_with(start)));
            let calls = code.filter(|line| {
                let line = PASSED.iter().fold(line.to_string(), |line, passed| line.replace(passed, ""));
                WRITES.iter().any(|mark| line.contains(mark))
            });
            writes.extend(calls.map(String::from));
        }
    }
    writers.dedup();
    assert_eq!(writers, ["marksheet", "sheet"], "crates of the program that are handed what can write");
    assert_eq!(writes, ["let Err(error) = rt.write_all(&slip[..size]) else {"], "what writes elsewhere than to standard error");
}
