//! The header and this crate say the same numbers, words and names.
use bulmegart::*;
use std::collections::BTreeMap;

const HEADER: &str = include_str!("../../../include/bulmegart.h");

/// The constants of the header's enums and macros that are plain numbers, without BULMEGART_.
fn constants() -> BTreeMap<&'static str, u32> {
    let mut all = BTreeMap::new();
    for line in HEADER.lines().map(|l| l.trim().trim_start_matches("#define ").trim_start_matches("enum { ")) {
        let Some((name, rest)) = line.strip_prefix("BULMEGART_").and_then(|l| l.split_once(' ')) else { continue };
        let digits: String = rest.trim_start_matches("= ").chars().take_while(char::is_ascii_digit).collect();
        if let Ok(number) = digits.parse() {
            all.insert(name, number);
        }
    }
    all
}

/// BadStart as BAD_START.
fn as_in_c(name: &str) -> String {
    let parted = name.chars().enumerate().map(|(k, c)| if k > 0 && c.is_uppercase() { format!("_{c}") } else { c.to_string() });
    parted.collect::<String>().to_uppercase()
}

#[test]
fn numbers_and_words() {
    let constants = constants();
    for refusal in Refusal::ALL {
        let name = as_in_c(&format!("{refusal:?}"));
        assert_eq!(constants.get(&name[..]), Some(&refusal.number()), "{name}");
        let case = format!("case BULMEGART_{name}: return \"{}\";", refusal.reason());
        assert!(HEADER.contains(&case), "{case}");
    }
    assert_eq!(constants["ACCEPTED"], 0);
}

#[test]
fn contexts_in_their_order() {
    let constants = constants();
    let ranges = [
        ("LAST_X_PREFIX", contexts::LAST_X_PREFIX),
        ("LAST_Y_PREFIX", contexts::LAST_Y_PREFIX),
        ("SIGNIFICANCE", contexts::SIGNIFICANCE),
        ("CODED_SUB_BLOCK", contexts::CODED_SUB_BLOCK),
        ("GREATER1", contexts::GREATER1),
        ("GREATER2", contexts::GREATER2),
        ("TRANSFORM_SKIP", contexts::TRANSFORM_SKIP),
        ("RDPCM_FLAG", contexts::RDPCM_FLAG),
        ("RDPCM_DIRECTION", contexts::RDPCM_DIRECTION),
        ("SCALE_VALUE", contexts::SCALE_VALUE),
        ("SCALE_SIGN", contexts::SCALE_SIGN),
    ];
    let mut behind = 0;
    for (name, range) in ranges {
        assert_eq!((constants[name] as usize, range.start), (behind, behind), "{name}");
        behind = range.end;
    }
    assert_eq!((constants["CONTEXTS"] as usize, CONTEXTS), (behind, behind));
    assert_eq!(constants["STATISTICS"] as usize, STATISTICS);
}

#[test]
fn lists_and_version() {
    let constants = constants();
    let longest = ["LONGEST_LIST_4X4", "LONGEST_LIST_8X8", "LONGEST_LIST_16X16", "LONGEST_LIST_32X32"];
    for (log2, name) in (2..).zip(longest) {
        assert_eq!(constants[name] as usize, longest_list(log2));
    }
    assert_eq!(constants["LONGEST_SCALE_LIST"] as usize, LONGEST_SCALE_LIST);
    assert_eq!(constants["TRAY_MOST"] as usize, TRAY_MOST);
    let longest = ["LONGEST_PAYLOAD_4X4", "LONGEST_PAYLOAD_8X8", "LONGEST_PAYLOAD_16X16", "LONGEST_PAYLOAD_32X32"];
    for (log2, name) in (2..).zip(longest) {
        assert_eq!(constants[name] as usize, longest_payload(log2));
    }
    let book = ["BOOK_BUFFER", "BOOK_ANSWER", "BOOK_NUMBERS"].map(|name| constants[name] as usize);
    assert_eq!(book, [book::HELD, book::ANSWER, book::NUMBERS]);
    assert_eq!(constants["PRESS_ROOM"] as usize, press::LONGEST_FRAME);
    let version = ["MAJOR", "MINOR", "PATCH"].map(|part| constants[&format!("VERSION_{part}")[..]].to_string());
    assert_eq!(version.join("."), env!("CARGO_PKG_VERSION"));
    let number = ["MAJOR", "MINOR", "PATCH"].iter().fold(0, |all, part| 256 * all + constants[&format!("VERSION_{part}")[..]]);
    assert_eq!((number as u32, bulmegart::version()), (bulmegart::VERSION, bulmegart::VERSION));
    assert_eq!(["NONE", "HORIZONTAL", "VERTICAL"].map(|name| constants[&format!("RDPCM_{name}")[..]]), [0, 1, 2]);
}

/// The names between `before` and the first bracket of a line, sorted.
fn declared<'a>(text: &'a str, before: &str) -> Vec<&'a str> {
    let behind = text.lines().filter_map(|line| line.split_once(before)).filter_map(|(_, line)| line.split_once('('));
    let plain = |name: &&str| name.chars().all(|c| c.is_ascii_lowercase() || c.is_ascii_digit() || c == '_');
    let mut names: Vec<&str> = behind.map(|(name, _)| name).filter(plain).collect();
    names.sort();
    names
}

/// The crate's files, one behind the other.
fn sources() -> String {
    let folder = std::fs::read_dir(concat!(env!("CARGO_MANIFEST_DIR"), "/src")).unwrap();
    folder.map(|file| file.unwrap().path()).filter(|path| path.is_file()).map(|path| std::fs::read_to_string(path).unwrap()).collect()
}

/// Each function that the header declares is one of the crate's, and the other way round; a safe one has the same name.
#[test]
fn functions() {
    let (header, sources) = (declared(HEADER, " bulmegart_"), sources());
    assert!(header.contains(&"residual_coding"));
    assert_eq!(header, declared(&sources, "pub fn bulmegart_"));
    // a book's functions are methods, H.264's stand in a module of their own
    let safe = declared(&sources, "pub fn ");
    assert_eq!(header.iter().find(|name| !safe.contains(&name.trim_start_matches("book_").trim_start_matches("h264_"))), None);
}
