//! The documents beside the proved code: docs/GUARANTEES.md has every public function
//! that asks something of its caller and every type that carries a fact, docs/TRACE.md names what stands in the tree, a
//! name is defined in one file of definitions, no table stands in code or definitions, and
//! what steps takes no bytes.

use std::collections::{BTreeMap, BTreeSet};
use std::fs;
use std::path::PathBuf;

fn path(name: &str) -> PathBuf {
    PathBuf::from(concat!(env!("CARGO_MANIFEST_DIR"), "/../../../")).join(name)
}

/// The text of a file; none of a file that does not stand there.
fn text(name: &str) -> String {
    fs::read_to_string(path(name)).unwrap_or_default()
}

/// What stands in a folder, by name.
fn names(folder: &str) -> BTreeSet<String> {
    let Ok(entries) = fs::read_dir(path(folder)) else {
        return BTreeSet::new();
    };
    let name = |entry: std::io::Result<fs::DirEntry>| entry.unwrap().file_name();
    entries.map(|e| name(e).into_string().unwrap()).collect()
}

/// The rows of the tables of a text whose head has these cells.
fn rows(text: &str, head: &[&str]) -> Vec<Vec<String>> {
    let mut rows = Vec::new();
    let mut inside = false;
    for line in text.lines() {
        let cells: Vec<&str> = line.trim_matches('|').split('|').map(str::trim).collect();
        if !line.starts_with('|') {
            inside = false;
        } else if cells == head {
            inside = true;
        } else if inside && !line.starts_with("|---") {
            rows.push(cells.into_iter().map(String::from).collect());
        }
    }
    rows
}

/// Whether the function whose head these lines begin with has a `requires` before its body.
fn asks(lines: &[&str]) -> bool {
    for line in lines.iter().map(|line| line.trim()) {
        if line.starts_with("requires") {
            return true;
        }
        if (line.ends_with('{') && !line.starts_with("ensures")) || line.ends_with(';') {
            return false;
        }
    }
    false
}

/// A head without what stands in angle brackets.
fn bare(head: &str) -> String {
    let mut depth = 0;
    let outside = |c: char| {
        match c {
            '<' => depth += 1,
            '>' => depth -= 1,
            _ => return (depth == 0).then_some(c),
        }
        None
    };
    head.chars().filter_map(outside).collect()
}

/// The public functions of a source file that ask something: `NAME`, or `TYPE::NAME` in an `impl` and `TRAIT::NAME` in a public trait.
fn asking(source: &str) -> Vec<String> {
    let lines: Vec<&str> = source.lines().collect();
    let mut found = Vec::new();
    let mut of = String::new();
    let mut public = "pub fn ";
    for (i, line) in lines.iter().enumerate() {
        if let Some(name) = line.strip_prefix("pub trait ") {
            let words = |c: char| !c.is_alphanumeric() && c != '_';
            of = name.split(words).next().unwrap().to_string() + "::";
            public = "fn ";
        } else if line.starts_with("impl") {
            of = bare(&line["impl".len()..])
                .trim_end_matches('{')
                .trim()
                .to_string()
                + "::";
        } else if *line == "}" {
            of.clear();
            public = "pub fn ";
        }
        if let Some(head) = line.trim().strip_prefix(public) {
            if asks(&lines[i..]) {
                found.push(of.clone() + bare(head).split('(').next().unwrap());
            }
        }
    }
    found
}

/// The structs of a source file with a ghost field, a fact that each value carries.
fn carrying(source: &str) -> Vec<String> {
    let mut found = Vec::new();
    let mut of = String::new();
    for line in source.lines() {
        let head = line.strip_prefix("pub ").unwrap_or(line);
        if let Some(name) = head.strip_prefix("struct ") {
            of = bare(name).trim_end_matches('{').trim().to_string();
        } else if line == "}" {
            of.clear();
        }
        let field = line.trim();
        let field = field.strip_prefix("pub ").unwrap_or(field);
        if field.starts_with("ghost ") && !of.is_empty() {
            found.push(std::mem::take(&mut of));
        }
    }
    found
}

/// What is found in every source file, as `CRATE::FILE::NAME`.
fn in_all(found_in: fn(&str) -> Vec<String>) -> BTreeSet<String> {
    let mut found = BTreeSet::new();
    for krate in names("crates") {
        for file in names(&format!("crates/{krate}/src")) {
            let stem = file.trim_end_matches(".rt");
            for name in found_in(&text(&format!("crates/{krate}/src/{file}"))) {
                found.insert(format!("{krate}::{stem}::{name}"));
            }
        }
    }
    found
}

/// The table of docs/GUARANTEES.md with this head has these names and no others.
fn is_listed(head: &[&str], standing: BTreeSet<String>) {
    let mut listed = BTreeSet::new();
    for row in rows(&text("docs/GUARANTEES.md"), head) {
        for name in row[1].split(", ") {
            listed.insert(format!("{}::{}", row[0], name.trim_matches('`')));
        }
    }
    let missing: Vec<_> = standing.difference(&listed).collect();
    let too_many: Vec<_> = listed.difference(&standing).collect();
    assert!(
        missing.is_empty() && too_many.is_empty(),
        "the table in docs/GUARANTEES.md lacks {missing:#?}\nand has too many {too_many:#?}"
    );
}

#[test]
fn guarantees_have_every_public_function_that_asks() {
    is_listed(
        &["crate", "functions", "ask", "who sees to it"],
        in_all(asking),
    );
}

#[test]
fn guarantees_have_every_type_that_carries_a_fact() {
    is_listed(
        &["crate", "types", "fact", "who builds it"],
        in_all(carrying),
    );
}

/// The name that a line of definitions or proofs declares.
fn declared(line: &str) -> Option<&str> {
    let mut line = line.trim();
    for mark in ["unfoldable ", "abbrev ", "pub ", "record ", "data "] {
        line = line.strip_prefix(mark).unwrap_or(line);
    }
    let (name, rest) = line.split_once(' ')?;
    let is_type = [':', '(', '{'].iter().any(|next| rest.starts_with(*next));
    (is_type && name != "use" && name != "--").then_some(name)
}

/// Whether a text of definitions or proofs declares a name.
fn declares(text: &str, name: &str) -> bool {
    text.lines().any(|line| declared(line) == Some(name))
}

#[test]
fn a_name_is_defined_once() {
    let mut standing = BTreeMap::new();
    let mut twice = Vec::new();
    for krate in names("crates") {
        for file in names(&format!("crates/{krate}/specs")) {
            let place = format!("crates/{krate}/specs/{file}");
            let text = text(&place);
            let outermost = text.lines().filter(|line| !line.starts_with(' '));
            let here: BTreeSet<&str> = outermost.filter_map(declared).collect();
            for name in here {
                if let Some(other) = standing.insert(name.to_string(), place.clone()) {
                    twice.push(format!("`{name}` in {other} and {place}"));
                }
            }
        }
    }
    assert!(standing.len() > 500, "{} names", standing.len());
    assert!(twice.is_empty(), "defined twice:\n{}", twice.join("\n"));
}

/// Whether `CRATE FILE.NAME`, or `CRATE FILE.RECORD.FIELD`, stands in a folder of the crate.
fn is_declared(cell: &str, folder: &str) -> bool {
    let Some((krate, name)) = cell.split_once(' ') else {
        return false;
    };
    let mut parts = name.split('.');
    let file = parts.next().unwrap();
    let text = text(&format!("crates/{krate}/{folder}/{file}.antt"));
    let names: Vec<&str> = parts.collect();
    !names.is_empty() && names.iter().all(|name| declares(&text, name))
}

/// Whether `CRATE::FILE::NAME`, a function, or a type or constant, stands in the code.
fn is_code(cell: &str) -> bool {
    let parts: Vec<&str> = cell.split("::").collect();
    let [krate, file, names @ ..] = &parts[..] else {
        return false;
    };
    let text = text(&format!("crates/{krate}/src/{file}.rt"));
    match names {
        [name] => stands(&text, name, |line| !line.starts_with(' ')),
        [of, name] => {
            let mut inside = false;
            stands(&text, name, |line| {
                if !line.starts_with(' ') {
                    let marks = ["impl", "struct", "enum", "trait"];
                    let has = |word: &&str| words(line).contains(word);
                    let opens = marks.iter().any(has) && has(of) && line.ends_with('{');
                    inside = opens || (inside && line != "}");
                }
                inside
            })
        }
        _ => false,
    }
}

/// The words of a line of code.
fn words(line: &str) -> Vec<&str> {
    line.split(|c: char| !c.is_alphanumeric() && c != '_')
        .filter(|word| !word.is_empty())
        .collect()
}

/// Whether a line that `counts` declares the name.
fn stands(text: &str, name: &str, mut counts: impl FnMut(&str) -> bool) -> bool {
    let marks = ["fn", "struct", "enum", "const"];
    let declares = |line: &str| {
        words(line)
            .windows(2)
            .any(|two| marks.contains(&two[0]) && two[1] == name)
    };
    text.lines().filter(|line| counts(line)).any(declares)
}

/// Whether a must-fail edit, a law or worked example, a test of the simulator or a file stands there.
fn is_check(cell: &str) -> bool {
    if cell.contains('/') {
        return path(cell).is_file();
    }
    if cell.contains('.') {
        return is_declared(cell, "proofs");
    }
    let Some((krate, name)) = cell.split_once(' ') else {
        return false;
    };
    let file = match krate {
        "simulator" => format!("docs/src/simulator/tests/{name}.rs"),
        _ => format!("crates/{krate}/must-fail/{name}.edit"),
    };
    path(&file).is_file()
}

#[test]
fn trace_names_what_stands_in_the_tree() {
    let head = ["sentence", "definition", "function", "check"];
    let is_definition: fn(&str) -> bool = |cell| is_declared(cell, "specs");
    let stands = [is_definition, is_code, is_check];
    let rows = rows(&text("docs/TRACE.md"), &head);
    assert!(rows.len() > 200, "{} rows", rows.len());
    let mut wrong = Vec::new();
    let mut lines = 0;
    for row in &rows {
        assert!(row.len() == 4, "a row of {} cells: {row:?}", row.len());
        lines = if row[0] == "\"" { lines + 1 } else { 1 };
        if lines > 3 {
            wrong.push(format!("a fourth line: {}", row.join(" | ")));
        }
        for (cell, stands) in row[1..].iter().zip(stands) {
            if !(cell.is_empty() || cell == "-" || stands(cell)) {
                wrong.push(format!("`{cell}` in: {}", row.join(" | ")));
            }
        }
    }
    let wrong = wrong.join("\n");
    assert!(
        wrong.is_empty(),
        "docs/TRACE.md names what is not there:\n{wrong}"
    );
}

#[test]
fn guarantees_name_edits_that_stand() {
    let rows = rows(&text("docs/GUARANTEES.md"), &["impostor", "edit"]);
    assert!(rows.len() > 20, "{} rows", rows.len());
    for of_crate in rows.iter().flat_map(|row| row[1].split("; ")) {
        let (krate, edits) = of_crate.split_once(' ').expect("a crate and its edits");
        for edit in edits.split(", ") {
            assert!(
                is_check(&format!("{krate} {edit}")),
                "docs/GUARANTEES.md names the edit {edit} of {krate}, which is not there"
            );
        }
    }
}

/// The longest list of numbers in a text, comments left out: how many follow one another
/// with nothing but a comma, `∷` and white space between them.
fn longest_list(text: &str) -> usize {
    let code = text.lines().filter(|line| {
        let line = line.trim();
        !line.starts_with("//") && !line.starts_with("--")
    });
    let code = code.collect::<Vec<_>>().join(" ").replace('∷', ",");
    let (mut longest, mut here) = (0, 0);
    for item in code.split(',') {
        let item = item.trim();
        let first = item.rsplit(['[', '(', ' ']).next().unwrap();
        let is_number = |word: &str| word.starts_with(|c: char| c.is_ascii_digit());
        here = match (is_number(item), is_number(first)) {
            (true, _) => here + 1,
            (false, true) => 1,
            (false, false) => 0,
        };
        longest = longest.max(here);
    }
    longest
}

#[test]
fn a_list_of_numbers_is_seen() {
    assert_eq!(longest_list("[0, 512, 256,\n 768, 128]"), 5);
    assert_eq!(longest_list("of (7 ∷ 0x10 ∷ 9 ∷ [])"), 3);
    assert_eq!(longest_list("// 1, 2, 3\n f(w, 4, 5)"), 2);
}

#[test]
fn no_table_stands_in_the_code() {
    for krate in names("crates") {
        for folder in ["src", "specs"] {
            for file in names(&format!("crates/{krate}/{folder}")) {
                let place = format!("crates/{krate}/{folder}/{file}");
                let longest = longest_list(&text(&place));
                assert!(longest < 16, "{place} has a list of {longest} numbers");
            }
        }
    }
}

/// The crates of what steps.
const STEPPING: [&str; 6] = [
    "fields",
    "products",
    "moves",
    "sequencer",
    "stepping",
    "legs",
];

/// Whether a source, comments left out, has a slice or an array of bytes: as the type of a
/// parameter or a local, or as a list whose first item is a byte.
fn has_bytes(source: &str) -> bool {
    let code = source.lines().map(|line| line.split("//").next().unwrap());
    let code: String = code.flat_map(str::split_whitespace).collect();
    let mut brackets = code.split('[').skip(1);
    let first = |inside: &str| inside.split([',', ';', ']']).next().unwrap().to_string();
    brackets.any(|inside| first(inside).ends_with("u8"))
}

#[test]
fn bytes_are_seen() {
    let with = [
        "fn f(file: &[u8], at: usize) -> u16 {",
        "fn f(\n    to: &mut [u8],\n)",
        "let b: [u8; 4] = g(x);",
        "let mut b = [ 0u8 ; 8 ];",
        "let b = [x as u8, y as u8];",
        "fn f(files: &[[u8; 512]])",
    ];
    for source in with {
        assert!(has_bytes(source), "{source}");
    }
    let without = [
        "fn f(code: &[u16], trap: u8) -> [usize; 4] {",
        "// lent as `&[u8]`\nfn f(w: &mut [u16; 14]) {}",
        "let t: u8 = traps[i] as u8;",
    ];
    for source in without {
        assert!(!has_bytes(source), "{source}");
    }
}

/// So it is not lent the file, which is bytes.
#[test]
fn what_steps_takes_no_bytes() {
    for krate in STEPPING {
        let files = names(&format!("crates/{krate}/src"));
        assert!(files.len() > 1, "{krate} has no source");
        for file in files {
            let place = format!("crates/{krate}/src/{file}");
            assert!(!has_bytes(&text(&place)), "{place} has bytes");
        }
    }
    assert!(has_bytes(&text("crates/form/src/decode.rt")));
}
