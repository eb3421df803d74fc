//! Compares what `raw` declares with `include/lurmenize.h`: the C compiler is given a program that says the same in C.

use super::{lurm_version, Answer, CONSTANTS, FUNCTIONS, STRUCTS, VERSION, VERSION_MAJOR, VERSION_MINOR, VERSION_PATCH, VERSION_STRING};
use std::collections::BTreeSet;
use std::fmt::Write as _;
use std::io::Write as _;
use std::path::{Path, PathBuf};
use std::process::{Command, Stdio};

/// A struct as it is declared in Rust.
pub(super) struct Struct {
    pub(super) name: &'static str,
    pub(super) size: usize,
    pub(super) fields: &'static [Field],
}

/// A field as it is declared in Rust.
pub(super) struct Field {
    pub(super) name: &'static str,
    pub(super) declared: &'static str,
    pub(super) offset: usize,
}

/// A function as it is declared in Rust.
pub(super) struct Function {
    pub(super) name: &'static str,
    pub(super) arguments: &'static [&'static str],
    pub(super) answer: &'static str,
}

fn folder() -> PathBuf {
    Path::new(env!("CARGO_MANIFEST_DIR")).join("../../include")
}

/// `lurm_region_range` for `RegionRange`.
fn struct_in_c(name: &str) -> String {
    name.chars().fold(String::from("lurm"), |mut c, letter| {
        if letter.is_ascii_uppercase() {
            c.push('_');
        }
        c.push(letter.to_ascii_lowercase());
        c
    })
}

fn type_in_c(declared: &str) -> String {
    match declared {
        "u8" => "uint8_t".into(),
        "u32" => "uint32_t".into(),
        "u64" => "uint64_t".into(),
        "usize" => "size_t".into(),
        "*const u8" => "const uint8_t *".into(),
        "*mut u8" => "uint8_t *".into(),
        name => struct_in_c(name),
    }
}

/// A pointer `p` to what a field is.
fn pointer_in_c(declared: &str) -> String {
    match declared.strip_prefix('[').and_then(|array| array.strip_suffix(']')).and_then(|array| array.split_once("; ")) {
        Some((item, count)) => format!("{} (*p)[LURM_{count}]", type_in_c(item)),
        None => format!("{} *p", type_in_c(declared)),
    }
}

fn field_in_c(name: &str) -> &str {
    name.trim_start_matches("r#")
}

/// The program compiles only if `condition` holds.
fn assert_in_c(c: &mut String, condition: &str) {
    writeln!(c, "_Static_assert({condition}, {condition:?});").unwrap();
}

/// A constant has the value that Rust has, a number or a string.
fn constant(c: &mut String, name: &str, value: &str) {
    if value.starts_with('"') {
        assert_in_c(c, &format!("__builtin_strcmp(LURM_{name}, {value}) == 0"));
    } else {
        assert_in_c(c, &format!("LURM_{name} == {}", value.replace('_', "")));
    }
}

/// A struct has the size and the fields that Rust has, and nothing between or after them.
fn structure(c: &mut String, declared: &Struct) {
    let (name, mut sum) = (struct_in_c(declared.name), String::from("0"));
    for Field { name: field, declared, offset } in declared.fields {
        let (field, pointer) = (field_in_c(field), pointer_in_c(declared));
        assert_in_c(c, &format!("offsetof({name}, {field}) == {offset}"));
        writeln!(c, "void look_at_{name}_{field}({name} *s);").unwrap();
        writeln!(c, "void look_at_{name}_{field}({name} *s) {{ {pointer} = &s->{field}; (void)p; }}").unwrap();
        write!(sum, " + sizeof((({name} *)0)->{field})").unwrap();
    }
    assert_in_c(c, &format!("sizeof({name}) == {}", declared.size));
    assert_in_c(c, &format!("sizeof({name}) == {sum}"));
}

/// A function has the types that Rust has: a second declaration has to agree with the first.
fn function(c: &mut String, declared: &Function) {
    let arguments: Vec<String> = declared.arguments.iter().map(|argument| type_in_c(argument)).collect();
    let arguments = if arguments.is_empty() { "void".into() } else { arguments.join(", ") };
    writeln!(c, "{} {}({arguments});", type_in_c(declared.answer), declared.name).unwrap();
}

/// The program: it compiles only if every number and type is the header's.
fn program() -> String {
    let mut c = String::from("#include \"lurmenize.h\"\n");
    CONSTANTS.iter().for_each(|(name, value)| constant(&mut c, name, value));
    STRUCTS.iter().for_each(|declared| structure(&mut c, declared));
    FUNCTIONS.iter().for_each(|declared| function(&mut c, declared));
    c
}

/// The header without its comments.
fn declarations() -> String {
    let header = std::fs::read_to_string(folder().join("lurmenize.h")).unwrap();
    let mut parts = header.split("/*");
    let before = parts.next().unwrap().to_string();
    parts.fold(before, |text, part| text + part.split_once("*/").unwrap().1)
}

/// The header without what is for the preprocessor.
fn code_of(header: &str) -> String {
    header.lines().filter(|line| !line.starts_with('#')).flat_map(|line| [line, "\n"]).collect()
}

/// What stands in `text` between `start` and the next `end`, each time.
fn between<'a>(text: &'a str, start: &'a str, end: &'a str) -> impl Iterator<Item = &'a str> {
    text.split(start).skip(1).filter_map(move |rest| rest.split_once(end)).map(|(found, _)| found)
}

/// Each struct of the header and how many fields it has.
fn structs_of(header: &str) -> BTreeSet<(String, usize)> {
    between(header, "typedef struct ", "\n}")
        .filter_map(|declared| declared.split_once(" {"))
        .map(|(name, fields)| (name.to_string(), fields.matches(';').count()))
        .collect()
}

/// Each function of the header that is not inline, and whether the compiler warns where what it hands back is not used.
fn functions_of(header: &str) -> BTreeSet<(&str, bool)> {
    let statements = header.split([';', '}']).filter_map(|statement| statement.split_once('('));
    let declared = statements.filter_map(|(before, _)| before.rsplit_once("lurm_")).filter(|(before, _)| !before.contains("inline"));
    declared.map(|(before, name)| (name, before.contains("LURM_MUST_USE"))).collect()
}

/// What the header defines, but for what it tells compilers.
fn constants_of(header: &str) -> BTreeSet<&str> {
    let defined = header.lines().filter_map(|line| line.strip_prefix("#define LURM_")?.split_whitespace().next());
    defined.filter(|name| *name != "MUST_USE").collect()
}

#[test]
fn every_number_and_type_is_the_headers() {
    let compiler = std::env::var("CC").unwrap_or_else(|_| "cc".into());
    let mut compiling = Command::new(compiler)
        .args(["-std=c11", "-Wall", "-Wextra", "-Werror", "-fsyntax-only", "-x", "c", "-", "-I"])
        .arg(folder())
        .stdin(Stdio::piped())
        .stderr(Stdio::piped())
        .spawn()
        .expect("a C compiler, `cc` or $CC");
    compiling.stdin.take().unwrap().write_all(program().as_bytes()).unwrap();
    let compiled = compiling.wait_with_output().unwrap();
    assert!(compiled.status.success(), "{}", String::from_utf8_lossy(&compiled.stderr));
}

#[test]
fn nothing_of_the_header_is_left_out() {
    let header = declarations();
    let structs = STRUCTS.iter().map(|declared| (struct_in_c(declared.name), declared.fields.len())).collect();
    assert_eq!(structs_of(&header), structs);
    let answers = |function: &Function| function.answer != "u64";
    let functions = FUNCTIONS.iter().map(|function| (function.name.trim_start_matches("lurm_"), answers(function))).collect();
    assert_eq!(functions_of(&code_of(&header)), functions);
    let constants = CONSTANTS.iter().map(|(name, _)| *name).collect();
    assert_eq!(constants_of(&header), constants);
}

/// What is displayed of a refusal begins with what `lurm_strerror` says of its number.
#[test]
fn refusals_have_the_headers_words() {
    let header = declarations();
    let cases: Vec<_> = between(&header, "case LURM_", "\";").filter_map(|case| case.split_once(": return \"")).collect();
    assert_eq!(cases.len(), between(&header, "#define LURM_E", " ").count());
    for (name, words) in cases {
        let (_, number) = CONSTANTS.iter().find(|(constant, _)| *constant == name).unwrap();
        let carries = u32::from(name == "E2BIG");
        let answer = Answer { refusal: number.parse().unwrap(), carries, value: carries.into() };
        let refusal = answer.number().unwrap_err();
        assert!(refusal.to_string().starts_with(words), "{refusal}, {words}");
    }
}

/// The crate is of the same version as the header, whose numbers the constants are, and as the library.
#[test]
fn the_version_is_one() {
    assert_eq!(VERSION_STRING, env!("CARGO_PKG_VERSION"));
    assert_eq!(VERSION_STRING, format!("{VERSION_MAJOR}.{VERSION_MINOR}.{VERSION_PATCH}"));
    assert_eq!(VERSION, VERSION_MAJOR * 1_000_000 + VERSION_MINOR * 1_000 + VERSION_PATCH);
    assert_eq!(lurm_version(), VERSION);
}
