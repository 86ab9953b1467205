//! `include/reinoften.h` declares in C what `crates/rack_c` has in Rattle and `examples/rust/src/calls.rs` in Rust. No
//! proof is about the header, so the three are held to each other here, symbol by symbol.
use std::collections::BTreeMap;
use std::fs;
use std::path::{Path, PathBuf};

/// The structs that cross, as the header names them behind `reinoften_`, as Rattle does, and as Rust does.
const C: &str = "answer pauli code error_pair reading correction";
const RATTLE: &str = "Answer Pauli Code ErrorPair SheetAnswer CorrectionAnswer";
const RUST: &str = "Answer Pauli Code ErrorPair Reading Correction";

/// A field or a parameter: its name, and its type as C has it. The result of a function stands last, without a name.
type Named = (String, String);

type Declarations = BTreeMap<String, Vec<Named>>;

fn root() -> PathBuf {
    Path::new(env!("CARGO_MANIFEST_DIR")).join("..")
}

/// The text of a file without its comments, with one space wherever there is space.
fn text(path: impl AsRef<Path>, comment: &str, end: &str) -> String {
    let path = root().join(path);
    let whole =
        fs::read_to_string(&path).unwrap_or_else(|fault| panic!("{}: {fault}", path.display()));
    let mut rest = whole.as_str();
    let mut kept = String::new();
    while let Some((before, behind)) = rest.split_once(comment) {
        kept = kept + before + " ";
        rest = behind.split_once(end).map_or("", |(_, rest)| rest);
    }
    kept += rest;
    kept.split_whitespace().collect::<Vec<_>>().join(" ")
}

fn header() -> String {
    text("include/reinoften.h", "/*", "*/")
}

fn rust() -> String {
    text("examples/rust/src/calls.rs", "//", "\n")
}

fn rattle(layer: &str) -> String {
    text(format!("crates/{layer}/src/lib.rt"), "//", "\n")
}

/// What stands between two marks, the first time.
fn between<'a>(text: &'a str, start: &str, end: &str) -> Option<&'a str> {
    Some(text.split_once(start)?.1.split_once(end)?.0.trim())
}

/// The parts of a list, of which the last may have its separator too.
fn parts(list: &str, separator: char) -> impl Iterator<Item = &str> {
    list.split(separator)
        .map(str::trim)
        .filter(|part| !part.is_empty())
}

/// `const uint8_t *sheet`, or `reinoften_pauli g[REINOFTEN_ROW_ROOM]`.
fn c_named(declaration: &str) -> Named {
    let (declaration, size) =
        declaration.split_at(declaration.find('[').unwrap_or(declaration.len()));
    let (kind, name) = declaration.split_at(declaration.rfind([' ', '*']).unwrap() + 1);
    (name.to_string(), kind.trim().to_string() + size)
}

fn c_structs() -> Declarations {
    let header = header();
    let declare = |part: &str| {
        let (fields, behind) = part.split_once('}').unwrap();
        let name = behind.split_once(';').unwrap().0.trim();
        (name.to_string(), parts(fields, ';').map(c_named).collect())
    };
    header
        .split("typedef struct {")
        .skip(1)
        .map(declare)
        .collect()
}

fn c_functions() -> Declarations {
    let declare = |statement: &str| {
        let (head, parameters) = statement.split_once('(')?;
        let (result, name) = head.rsplit_once(' ')?;
        let mut named: Vec<Named> = parts(parameters.strip_suffix(')')?, ',')
            .map(c_named)
            .collect();
        named.push((String::new(), result.to_string()));
        Some((name.to_string(), named))
    };
    parts(&header(), ';').filter_map(declare).collect()
}

/// The type in C of a type in Rattle or Rust, whose structs have these names.
fn c_type(kind: &str, structs: &str) -> String {
    if let Some((kind, size)) = between(kind, "[", "]").and_then(|array| array.split_once("; ")) {
        return format!("{}[REINOFTEN_{size}]", c_type(kind, structs));
    }
    match kind {
        "u32" => "uint32_t".to_string(),
        "usize" => "size_t".to_string(),
        "*const u8" => "const uint8_t *".to_string(),
        "*mut u8" => "uint8_t *".to_string(),
        _ => {
            let mut pairs = structs.split(' ').zip(C.split(' '));
            let crossing = pairs.find(|(name, _)| *name == kind);
            format!("reinoften_{}", crossing.expect(kind).1)
        }
    }
}

/// `code: Code`. A slice is a pointer and a length.
fn named(declaration: &str, structs: &str) -> Vec<Named> {
    let (name, kind) = declaration.split_once(": ").unwrap();
    let slice = |pointer: &str| {
        let length = (format!("{name}_length"), "size_t".to_string());
        vec![(name.to_string(), c_type(pointer, structs)), length]
    };
    match kind {
        "&[u8]" => slice("*const u8"),
        "&mut [u8]" => slice("*mut u8"),
        _ => vec![(name.to_string(), c_type(kind, structs))],
    }
}

/// The functions whose declarations begin with these words.
fn functions(text: &str, begin: &str, structs: &str) -> Declarations {
    let declare = |part: &str| {
        let (name, behind) = part.split_once('(').unwrap();
        let (parameters, behind) = behind.split_once(')').unwrap();
        let result = behind.strip_prefix(" -> ").unwrap();
        let result = result.split([' ', ';']).next().unwrap();
        let mut all: Vec<Named> = parts(parameters, ',')
            .flat_map(|parameter| named(parameter, structs))
            .collect();
        all.push((String::new(), c_type(result, structs)));
        (name.to_string(), all)
    };
    text.split(begin).skip(1).map(declare).collect()
}

/// The structs of these names, each of which has to be laid out as in C and declared once.
fn structs(text: &str, structs: &str) -> Declarations {
    let declare = |(name, in_c): (&str, &str)| {
        let begin = format!("pub struct {name} {{");
        let pieces: Vec<&str> = text.split(&begin).collect();
        assert_eq!(pieces.len(), 2, "{name} is declared once");
        let attributes = pieces[0].rsplit([';', '}']).next().unwrap();
        assert!(attributes.contains("#[repr(C)]"), "{name} is not repr(C)");
        let fields = pieces[1].split_once('}').unwrap().0;
        let fields = parts(fields, ',').map(|field| field.strip_prefix("pub ").unwrap());
        let fields = fields.flat_map(|field| named(field, structs)).collect();
        (format!("reinoften_{in_c}"), fields)
    };
    structs.split(' ').zip(C.split(' ')).map(declare).collect()
}

/// The numbers that the header gives names to, without `REINOFTEN_`.
fn c_numbers() -> BTreeMap<String, usize> {
    let number = |part: &str| {
        let mut words = parts(part, ' ').filter(|word| *word != "=");
        let name = words.next()?.to_string();
        Some((name, words.next()?.trim_end_matches(',').parse().ok()?))
    };
    let header = header();
    header
        .split("REINOFTEN_")
        .skip(1)
        .filter_map(number)
        .collect()
}

/// `TooLong` as `TOO_LONG`.
fn upper(name: &str) -> String {
    let split = |letter: char| [letter.is_uppercase().then_some('_'), Some(letter)];
    let all: String = name.chars().flat_map(split).flatten().collect();
    all.trim_start_matches('_').to_uppercase()
}

/// The cases of `Refusal::values`, and the number of each.
fn refusals() -> BTreeMap<String, usize> {
    let number = |part: &str| {
        let name = part.split(|c: char| !c.is_alphanumeric()).next()?;
        let values = part.split_once("RefusalValues::")?.1;
        Some((upper(name), between(values, "(", ",")?.parse().ok()?))
    };
    let source = rattle("refusals");
    source
        .split("Refusal::")
        .skip(1)
        .filter_map(number)
        .collect()
}

fn constant(text: &str, name: &str) -> usize {
    let declared = between(text, &format!("const {name}: "), ";").expect(name);
    declared.split_once("= ").unwrap().1.parse().expect(name)
}

#[test]
fn functions_agree() {
    let declared = c_functions();
    assert_eq!(declared.len(), 7);
    let calls = rattle("rack_c");
    let exported = "#[unsafe(no_mangle)] pub extern \"C\" fn ";
    assert_eq!(declared, functions(&calls, exported, RATTLE));
    let calls = rust();
    let block = between(&calls, "extern \"C\" {", "}").unwrap();
    assert_eq!(declared, functions(block, "pub fn ", RUST));
}

#[test]
fn structs_agree() {
    let declared = c_structs();
    assert_eq!(declared.len(), 6);
    let folders = fs::read_dir(root().join("crates")).unwrap();
    let libraries = folders.map(|folder| folder.unwrap().path().join("src/lib.rt"));
    let libraries = libraries.filter(|library| library.is_file());
    let all: String = libraries.map(|path| text(path, "//", "\n")).collect();
    assert_eq!(declared, structs(&all, RATTLE));
    assert_eq!(declared, structs(&rust(), RUST));
}

#[test]
fn numbers_agree() {
    let mut declared = c_numbers();
    declared.retain(|name, _| !name.ends_with("_ROOM"));
    let mut answers = refusals();
    assert_eq!(answers.len(), 17);
    answers.insert("DONE".to_string(), 0);
    answers.insert(
        "NONE".to_string(),
        constant(&rattle("rack_answers"), "NONE"),
    );
    assert_eq!(declared, answers);
}

#[test]
fn rooms_agree() {
    let record = rattle("code_record");
    let n = constant(&record, "MOST_QUBITS");
    let report = text("crates/reporting/specs/Report.antt", "--", "\n");
    let longest_report = between(&report, "longest_report = ", " ").unwrap();
    let rooms = [
        ("SYNDROME_ROOM", n - 1),
        ("LETTERS_ROOM", n),
        ("CANONICAL_ROOM", (n - 1) * (n + 4)),
        ("SHEET_ROOM", constant(&record, "LONGEST_SHEET")),
        ("REPORT_ROOM", longest_report.parse().unwrap()),
        ("ROW_ROOM", constant(&record, "ROW_ROOM")),
    ];
    let mut declared = c_numbers();
    declared.retain(|name, _| name.ends_with("_ROOM"));
    let rooms = rooms.map(|(name, room)| (name.to_string(), room));
    assert_eq!(declared, BTreeMap::from(rooms));
}

#[test]
fn constants_of_rust_agree() {
    let declared = c_numbers();
    let calls = rust();
    let names = calls
        .split("pub const ")
        .skip(1)
        .map(|part| part.split_once(':').unwrap().0);
    let names: Vec<&str> = names.collect();
    assert_eq!(names.len(), 8);
    for name in names {
        assert_eq!(declared.get(name), Some(&constant(&calls, name)), "{name}");
    }
}
