//! Each function that Rattle exports stands in the header and in this crate, with the same parameters in the same order, and each struct with the same
//! fields: names, widths, and what is lent to be written. A struct may have another name in each; which one is which is settled by its first use, and holds.
use std::collections::BTreeMap;
use std::fs;
use std::path::{Path, PathBuf};

const HEADER: &str = include_str!("../../../include/bulmegart.h");
const EXAMPLE: &str = include_str!("../../../examples/every_function.c");

/// By value, or a pointer to what may be read alone, or written too.
#[derive(Clone, Copy, Debug, PartialEq, Eq)]
enum Lent {
    No,
    Read,
    Write,
}

/// A parameter or a field: its name, how it is lent, its type by this language's word.
type Part = (String, Lent, String);

#[derive(Debug)]
struct Function {
    parts: Vec<Part>,
    gives: String,
}

#[derive(Default)]
struct Language {
    functions: BTreeMap<String, Function>,
    structs: BTreeMap<String, Vec<Part>>,
}

fn files(folder: &Path, ending: &str) -> Vec<PathBuf> {
    let mut all: Vec<PathBuf> = fs::read_dir(folder).unwrap().map(|file| file.unwrap().path()).collect();
    all.sort();
    let (folders, files): (Vec<PathBuf>, Vec<PathBuf>) = all.into_iter().partition(|path| path.is_dir());
    let below: Vec<PathBuf> = folders.iter().flat_map(|below| self::files(below, ending)).collect();
    files.into_iter().filter(|path| path.extension().is_some_and(|e| e == ending)).chain(below).collect()
}

/// Without remarks, each run of blanks one blank.
fn bare(text: &str) -> String {
    let text = text.replace("/*", "\u{1}").replace("*/", "\u{2}");
    let (mut kept, mut inside) = (String::new(), false);
    for line in text.lines() {
        let line = if inside { line } else { line.split("//").next().unwrap() };
        for c in line.chars() {
            match c {
                '\u{1}' => inside = true,
                '\u{2}' => inside = false,
                _ if !inside => kept.push(c),
                _ => {}
            }
        }
        kept.push(' ');
    }
    kept.split_whitespace().collect::<Vec<_>>().join(" ")
}

/// What stands between commas that are in no bracket.
fn parted(text: &str) -> Vec<String> {
    let (mut parts, mut part, mut depth) = (Vec::new(), String::new(), 0);
    for c in text.chars() {
        match c {
            '[' | '(' => depth += 1,
            ']' | ')' => depth -= 1,
            _ => {}
        }
        if c == ',' && depth == 0 {
            parts.push(std::mem::take(&mut part));
        } else {
            part.push(c);
        }
    }
    parts.push(part);
    parts.into_iter().map(|part| part.trim().to_string()).filter(|part| !part.is_empty()).collect()
}

/// Behind each `before`: the name, what stands between the brackets, and what stands behind them.
fn declared<'a>(text: &'a str, before: &str, open: char, close: char) -> Vec<(&'a str, &'a str, &'a str)> {
    text.match_indices(before)
        .filter_map(|(at, _)| {
            let (name, rest) = text[at + before.len()..].split_once(open)?;
            let (inner, behind) = rest.split_once(close)?;
            Some((name.trim(), inner, behind.trim()))
        })
        .filter(|(name, _, _)| !name.is_empty() && name.chars().all(|c| c.is_ascii_alphanumeric() || c == '_'))
        .collect()
}

/// Rattle's or Rust's `name: type`. A slice is two in C: a pointer, and its length, whose name is not told here.
fn typed(part: &str) -> Vec<Part> {
    let (name, word) = part.trim_start_matches("pub ").split_once(": ").unwrap();
    let lent = |how, word: &str| (name.to_string(), how, word.to_string());
    if let Some(word) = word.strip_prefix("*const ") {
        return vec![lent(Lent::Read, word)];
    }
    if let Some(word) = word.strip_prefix("*mut ") {
        return vec![lent(Lent::Write, word)];
    }
    let (how, inner) = match (word.strip_prefix("&mut ["), word.strip_prefix("&[")) {
        (Some(inner), _) => (Lent::Write, inner),
        (_, Some(inner)) => (Lent::Read, inner),
        _ => return vec![lent(Lent::No, word)],
    };
    let inner = inner.strip_suffix(']').unwrap();
    match inner.rsplit_once("; ") {
        // an array has its length in its type; an array of arrays is a slice of them
        Some((word, _)) if !inner.ends_with(']') => vec![lent(how, word)],
        _ => vec![lent(how, inner), (String::new(), Lent::No, "usize".to_string())],
    }
}

/// C's `type name`, `const type *name` or `type name[COUNT]`.
fn typed_in_c(part: &str) -> Part {
    let (written, reads) = (part.trim_start_matches("const "), part.starts_with("const "));
    let name_at = written.rfind([' ', '*']).unwrap() + 1;
    let (word, name) = (written[..name_at].trim(), &written[name_at..]);
    let pointer = word.ends_with('*') || name.ends_with(']');
    let how = if !pointer { Lent::No } else if reads { Lent::Read } else { Lent::Write };
    (name.split('[').next().unwrap().to_string(), how, word.trim_end_matches('*').trim().to_string())
}

/// Rattle and Rust: functions behind `before`, and structs.
fn of_sources(folders: &[PathBuf], ending: &str, before: &str) -> Language {
    let mut language = Language::default();
    for file in folders.iter().flat_map(|folder| files(folder, ending)) {
        let text = bare(&fs::read_to_string(file).unwrap());
        for (name, inner, behind) in declared(&text, before, '(', ')') {
            let gives = behind.strip_prefix("-> ").unwrap_or("").split([' ', ';', '{']).next().unwrap().to_string();
            let parts = parted(inner).iter().flat_map(|part| typed(part)).collect();
            assert!(language.functions.insert(name.to_string(), Function { parts, gives }).is_none(), "{name} twice");
        }
        for after in text.split("#[repr(C)]").skip(1) {
            let Some((name, inner, _)) = declared(after, "pub struct ", '{', '}').first().copied() else { continue };
            language.structs.insert(name.to_string(), parted(inner).iter().flat_map(|part| typed(part)).collect());
        }
    }
    language
}

fn of_header() -> Language {
    let mut language = Language::default();
    let text = bare(&HEADER.lines().filter(|line| !line.starts_with('#')).collect::<Vec<_>>().join("\n"));
    for (name, inner, _) in declared(&text, " bulmegart_", '(', ')').into_iter().filter(|(_, _, behind)| behind.starts_with(';')) {
        let before = text.split(&format!(" bulmegart_{name}(")).next().unwrap();
        let gives = before.rsplit(' ').next().unwrap().to_string();
        let parts = parted(inner).iter().filter(|part| *part != "void").map(|part| typed_in_c(part)).collect();
        assert!(language.functions.insert(format!("bulmegart_{name}"), Function { parts, gives }).is_none(), "{name} twice");
    }
    for after in text.split("typedef struct {").skip(1) {
        let (inner, rest) = after.split_once('}').unwrap();
        let fields = inner.split(';').map(str::trim).filter(|field| !field.is_empty()).map(typed_in_c).collect();
        language.structs.insert(rest.split(';').next().unwrap().trim().to_string(), fields);
    }
    language
}

/// Which struct of one language is which of the other, as met by now.
#[derive(Default)]
struct Same {
    pairs: BTreeMap<String, String>,
    back: BTreeMap<String, String>,
}

impl Same {
    fn check(&mut self, one: &str, other: &str, at: &str) {
        let word = match other {
            "uint8_t" => "u8",
            "uint32_t" => "u32",
            "uint64_t" => "u64",
            "int32_t" => "i32",
            "size_t" => "usize",
            word => word,
        };
        if ["u8", "u32", "u64", "i32", "usize", ""].contains(&one) {
            assert_eq!(one, word, "{at}");
            return;
        }
        assert_eq!(self.pairs.entry(one.to_string()).or_insert(word.to_string()), word, "{at}: {one}");
        assert_eq!(self.back.entry(word.to_string()).or_insert(one.to_string()), one, "{at}: {word}");
    }

    fn parts(&mut self, one: &[Part], other: &[Part], at: &str) {
        assert_eq!(one.len(), other.len(), "{at}: {one:?} {other:?}");
        for ((name, lent, word), (name2, lent2, word2)) in one.iter().zip(other) {
            assert!(name.is_empty() || name == name2, "{at}: {name} {name2}");
            assert_eq!(lent, lent2, "{at}: {name}");
            self.check(word, word2, &format!("{at}, {name}"));
        }
    }
}

/// All functions of `one` are those of `other`, and the structs that they use too. Gives how many of each.
fn hold(one: &Language, other: &Language) -> (usize, usize) {
    let mut same = Same::default();
    assert_eq!(one.functions.keys().collect::<Vec<_>>(), other.functions.keys().collect::<Vec<_>>());
    for (name, function) in &one.functions {
        let second = &other.functions[name];
        same.parts(&function.parts, &second.parts, name);
        same.check(&function.gives, &second.gives, name);
    }
    let mut done = 0;
    // fields may bring structs that no function hands over by itself
    while let Some((first, second)) = same.pairs.clone().into_iter().nth(done) {
        done += 1;
        // Rattle has an array for the struct of bytes or numbers that a slice is made of
        if let Some((word, count)) = first.trim_start_matches('[').trim_end_matches(']').split_once("; ") {
            let fields = &other.structs[&second];
            assert_eq!(fields.len(), count.parse::<usize>().unwrap(), "{second}");
            fields.iter().for_each(|(name, _, field)| same.check(word, field, &format!("{second}, {name}")));
            continue;
        }
        let before = same.pairs.len();
        same.parts(&one.structs[&first], &other.structs[&second], &first);
        if same.pairs.len() > before {
            done = 0;
        }
    }
    (one.functions.len(), same.pairs.len())
}

/// The folders of the crates' sources: the one of the exports, and the others.
fn sources() -> (PathBuf, Vec<PathBuf>) {
    let crates = Path::new(env!("CARGO_MANIFEST_DIR")).join("../../crates");
    let mut folders: Vec<PathBuf> = fs::read_dir(&crates).unwrap().map(|folder| folder.unwrap().path().join("src")).collect();
    folders.sort();
    let exports = crates.join("bulmegart_c").join("src");
    folders.retain(|folder| *folder != exports);
    (exports, folders)
}

const EXPORTED: &str = "#[unsafe(no_mangle)] pub extern \"C\" fn ";

/// Behind each `EXPORTED`: all that stands before the body, clauses too.
fn heads(folders: &[PathBuf]) -> BTreeMap<String, String> {
    let mut heads = BTreeMap::new();
    for file in folders.iter().flat_map(|folder| files(folder, "rt")) {
        let text = bare(&fs::read_to_string(file).unwrap());
        for after in text.split(EXPORTED).skip(1) {
            let head = after.split(" } { ").next().unwrap().to_string();
            assert!(head.contains(" ensures "), "{head}");
            assert!(heads.insert(head.split('(').next().unwrap().to_string(), head).is_none(), "twice");
        }
    }
    heads
}

/// Each export has the parameters, the answer and the clauses of the library's function that it calls, word for word.
#[test]
fn exports_and_libraries() {
    let (exports, libraries) = sources();
    let exports = heads(&[exports]);
    assert_eq!(exports, heads(&libraries));
    assert!(exports.contains_key("bulmegart_residual_coding"));
}

#[test]
fn rattle_header_and_crate() {
    let here = Path::new(env!("CARGO_MANIFEST_DIR"));
    let (exports, libraries) = sources();
    let rattle = Language {
        functions: of_sources(&[exports], "rt", EXPORTED).functions,
        structs: of_sources(&libraries, "rt", EXPORTED).structs,
    };
    let header = of_header();
    let rust = of_sources(&[here.join("src")], "rs", "pub fn bulmegart_");
    let rust = Language {
        functions: rust.functions.into_iter().map(|(name, function)| (format!("bulmegart_{name}"), function)).collect(),
        ..rust
    };
    let (functions, structs) = hold(&rattle, &header);
    assert_eq!(hold(&rust, &header), (functions, structs));
    // each struct of the header is one that is handed over, and the header asserts the place of each of its fields, and its size
    assert_eq!(header.structs.len(), structs);
    for (name, fields) in &header.structs {
        let short = name.trim_start_matches("bulmegart_");
        assert!(HEADER.contains(&format!("BULMEGART_SIZE({short}, ")), "{name}");
        for (field, _, _) in fields {
            assert!(HEADER.contains(&format!("BULMEGART_AT({short}, {field}, ")), "{name}.{field}");
        }
    }
    for name in header.functions.keys() {
        assert!(EXAMPLE.contains(&format!("{name}(")), "{name} is not called in the example of every function");
    }
    println!("{functions} functions, {structs} structs");
}
