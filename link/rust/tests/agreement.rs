//! The C header, this crate's declarations and the proved functions say the
//! same: names, parameters in their order, results, numbers, words and
//! versions; and the page on the format has every refusal. Nothing else checks
//! that, so each is read as text.

use binmode::{Kind, Reason, sys};
use std::collections::BTreeMap;
use std::path::{Path, PathBuf};

/// A function's parameters, as types of Rust, and its result.
type Functions = BTreeMap<String, (Vec<String>, String)>;

fn text(path: impl AsRef<Path>) -> String {
    let folder = Path::new(env!("CARGO_MANIFEST_DIR"));
    std::fs::read_to_string(folder.join(path)).expect("the file is there")
}

fn header() -> String {
    text("../binmode.h")
}

/// What stands between the first `(` and the `)` that closes it, and what
/// follows.
fn parameters(text: &str) -> (Vec<String>, &str) {
    let (_, rest) = text.split_once('(').expect("parameters");
    let (list, rest) = rest.split_once(')').expect("their end");
    let split = |part: &str| part.split_whitespace().collect::<Vec<_>>().join(" ");
    let list = list.split(',').map(split);
    (list.filter(|part| !part.is_empty()).collect(), rest)
}

/// The functions that the header declares outside its comments.
fn of_header() -> Functions {
    let header = header();
    let declared = header.split("\n\n").flat_map(|part| part.split("*/\n"));
    let mut functions = Functions::new();
    for part in declared.filter(|part| part.contains(';') && !part.contains("static")) {
        let start = [
            "uint8_t binmode_",
            "void binmode_",
            "uint32_t binmode_version",
        ];
        let Some(at) = start.iter().filter_map(|start| part.find(start)).min() else {
            continue;
        };
        let (result, rest) = part[at..].split_once(' ').expect("a result and a name");
        let name = rest.split('(').next().expect("a name");
        let (list, _) = parameters(rest);
        let list = list.iter().filter(|part| *part != "void").map(|part| {
            let at = part.rfind([' ', '*']).expect("a type and a name") + 1;
            of_c(part[..at].trim())
        });
        functions.insert(name.into(), (list.collect(), of_c(result)));
    }
    functions
}

/// A type of C as one of Rust.
fn of_c(written: &str) -> String {
    let plain = |name: &str| match name {
        "uint8_t" => "u8",
        "uint32_t" => "u32",
        "size_t" => "usize",
        "int64_t" => "i64",
        "double" => "f64",
        "struct binmode_pieces" => "Pieces",
        "struct binmode_entry" => "Entry",
        "struct binmode_report" => "Report",
        "void" => "()",
        other => panic!("an unknown type of C: {other}"),
    };
    match written.strip_suffix('*') {
        None => plain(written).into(),
        Some(to) => match to.trim().strip_prefix("const ") {
            Some(to) => format!("*const {}", plain(to)),
            None => format!("*mut {}", plain(to.trim())),
        },
    }
}

/// The functions that this crate declares.
fn of_crate() -> Functions {
    let source = text("src/sys.rs");
    let parts = source.split("pub fn ").skip(1);
    let function = |part: &str| {
        let name = part.split('(').next().expect("a name").to_string();
        let (list, rest) = parameters(part);
        let result = rest.split(';').next().expect("an end");
        let result = result.trim().strip_prefix("-> ").unwrap_or("()");
        let list = list
            .iter()
            .map(|part| part.split_once(": ").expect("a type").1.into());
        (name, (list.collect(), result.to_string()))
    };
    parts.map(function).collect()
}

/// The functions that the proved library exports, which are those of the
/// crate `binmode_c`.
fn of_library() -> Functions {
    let folder = Path::new(env!("CARGO_MANIFEST_DIR")).join("../../crates/binmode_c/src");
    let entries = std::fs::read_dir(folder).expect("the proved crate is there");
    let paths: Vec<PathBuf> = entries.map(|entry| entry.expect("a file").path()).collect();
    let mut functions = Functions::new();
    for path in paths {
        let source = text(path);
        for part in source.split("pub extern \"C\" fn ").skip(1) {
            let name = part.split(['(', '<']).next().expect("a name");
            let part = part.replace("'a ", "").replace("'b ", "");
            let (list, rest) = parameters(&part);
            let result = rest.lines().next().expect("a line").trim();
            let result = result.strip_prefix("-> ").unwrap_or("()");
            let types = list
                .iter()
                .flat_map(|part| of_rattle(part.split_once(": ").expect("a type").1));
            functions.insert(name.into(), (types.collect(), result.into()));
        }
    }
    functions
}

/// A type of Rattle, as it passes to Rust.
fn of_rattle(written: &str) -> Vec<String> {
    let pointer = |kind: &str, to: &str| match to {
        "u64" => format!("{kind} usize"),
        "[u64; 6]" => format!("{kind} Pieces"),
        plain => format!("{kind} {plain}"),
    };
    let slice = |to: &str| {
        let to = to.strip_prefix('[')?.strip_suffix(']')?;
        (!to.contains(';')).then(|| to.to_string())
    };
    let (kind, to) = match (written.strip_prefix("&mut "), written.strip_prefix('&')) {
        (Some(to), _) => ("*mut", to),
        (None, Some(to)) => ("*const", to),
        (None, None) => return vec![written.into()],
    };
    match slice(to) {
        Some(element) => {
            let element = if element == "Member" { "Entry" } else { &element };
            vec![format!("{kind} {element}"), "usize".into()]
        }
        None => vec![pointer(kind, to)],
    }
}

#[test]
fn declarations() {
    let library = of_library();
    assert!(library.contains_key("binmode_read"));
    assert_eq!(of_header(), library);
    assert_eq!(of_crate(), library);
}

/// The types of a struct's fields, as they pass to Rust.
fn fields(source: &str, start: &str, of: impl Fn(&str) -> String) -> Vec<String> {
    let (_, rest) = source.split_once(start).expect("the struct");
    let (body, _) = rest.split_once('}').expect("its end");
    let lines = body.lines().skip(1).map(str::trim);
    let lines = lines.filter(|line| !line.is_empty() && !line.starts_with("//"));
    lines.map(of).collect()
}

#[test]
fn structs() {
    let of_rust = |line: &str| {
        let kind = line.trim_end_matches(',').split_once(": ").expect("a type").1;
        kind.replace("u64", "usize")
    };
    let of_c = |line: &str| {
        let (kind, _) = line.split_once(' ').expect("a type and a name");
        of_c(kind)
    };
    for (rattle, c, rust) in [
        ("member/src/lib.rt", "entry", "Entry"),
        ("lookup_answer/src/lib.rt", "report", "Report"),
    ] {
        let source = text(format!("../../crates/{rattle}"));
        let name = if c == "entry" { "Member" } else { "Report" };
        let start = format!("pub struct {name} {{");
        let above = source.split(&start).next().expect("what is above it");
        let attributes = above.rsplit("\n\n").next().expect("its attributes");
        assert!(attributes.contains("#[repr(C)]\n"), "{name} has C's layout");
        let fields_of_library = fields(&source, &start, of_rust);
        let header = fields(&header(), &format!("struct binmode_{c} {{"), of_c);
        let here = fields(&text("src/sys.rs"), &format!("pub struct {rust} {{"), of_rust);
        assert_eq!(header, fields_of_library);
        assert_eq!(here, fields_of_library);
    }
    assert_eq!(size_of::<sys::Entry>(), 8);
    assert_eq!(size_of::<sys::Report>(), 40);
}

/// The numbers that the header defines under a prefix, by their names.
fn defined(prefix: &str) -> BTreeMap<String, u32> {
    let header = header();
    let words = header.lines().filter_map(|line| {
        let line = line.strip_prefix("#define ")?.strip_prefix(prefix)?;
        let mut words = line.split_whitespace();
        Some((words.next()?, words.next()?.parse().ok()?))
    });
    words
        .map(|(name, number)| (name.to_string(), number))
        .collect()
}

/// `BadText` as `BAD_TEXT`.
fn of_constant(name: &str) -> String {
    let mut constant = String::new();
    for letter in name.chars() {
        if letter.is_uppercase() && !constant.is_empty() {
            constant.push('_');
        }
        constant.extend(letter.to_uppercase());
    }
    constant
}

#[test]
fn refusals() {
    let reasons = (0..=u8::MAX).filter_map(Reason::from_number);
    let reasons =
        reasons.map(|reason| (of_constant(&format!("{reason:?}")), reason.number().into()));
    assert_eq!(defined("BINMODE_REFUSED_"), reasons.collect());
    let (header, format) = (header(), text("../../docs/FORMAT.md"));
    for reason in (0..=u8::MAX).filter_map(Reason::from_number) {
        let name = of_constant(&format!("{reason:?}"));
        let line = format!("case BINMODE_REFUSED_{name}: return \"{reason}\";");
        assert!(header.contains(&line), "{line}");
        let row = format!("\n| {} | `{reason:?}` | ", reason.number());
        assert!(format.contains(&row), "docs/FORMAT.md lacks {row}");
    }
}

#[test]
fn kinds() {
    let kinds: Vec<Kind> = (0..=255).filter_map(Kind::from_number).collect();
    let numbers = kinds
        .iter()
        .map(|kind| (of_constant(&format!("{kind:?}")), kind.number()));
    assert_eq!(defined("BINMODE_KIND_"), numbers.collect());
    let header = header();
    for kind in kinds {
        let name = of_constant(&format!("{kind:?}"));
        let line = format!("case BINMODE_KIND_{name}: return \"{kind}\";");
        assert!(header.contains(&line), "{line}");
    }
}

#[test]
fn limits() {
    let limits = defined("BINMODE_MOST_");
    let of = |name: &str| limits[name] as usize;
    assert_eq!(of("BYTES"), binmode::MOST_BYTES);
    assert_eq!(of("ROWS"), binmode::MOST_ROWS);
    assert_eq!(of("NESTING"), binmode::MOST_NESTING);
    let usual = defined("BINMODE_USUAL_");
    assert_eq!(usual["NESTING"] as usize, binmode::USUAL_NESTING);
    let stack = defined("BINMODE_STACK_");
    let stack = ["READ", "LOOKUP", "WRITE", "INDEX"].map(|name| stack[name] as usize);
    let here = [
        binmode::STACK_READ,
        binmode::STACK_LOOKUP,
        binmode::STACK_WRITE,
        binmode::STACK_INDEX,
    ];
    assert_eq!(stack, here);
    let words = defined("BINMODE_ROW_");
    assert_eq!(words["WORDS"] as usize, binmode::ROW_WORDS);
}

#[test]
fn versions() {
    let version = defined("BINMODE_VERSION_");
    let part = |part: &str| part.parse().ok();
    assert_eq!(
        part(env!("CARGO_PKG_VERSION_MAJOR")),
        Some(version["MAJOR"])
    );
    assert_eq!(
        part(env!("CARGO_PKG_VERSION_MINOR")),
        Some(version["MINOR"])
    );
    // SAFETY: it takes nothing.
    assert_eq!(unsafe { sys::binmode_version_2() }, version["MINOR"]);
    assert!(header().contains(&format!("binmode_version_{}(void)", version["MAJOR"])));
}
