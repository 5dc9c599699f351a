//! The library from C: programs that include its header are compiled, linked with the archive and
//! run. And the header's names are those of the Rust crate.

use dacm::{Flags, Kind, Privileges, Refusal, Rule, Subject};
use std::collections::BTreeMap;
use std::io::ErrorKind;
use std::path::{Path, PathBuf};
use std::process::Command;

const FLAGS: [&str; 5] = ["-std=c99", "-Wall", "-Wextra", "-Wpedantic", "-Werror"];

#[test]
fn every_function_from_c() {
    let program = compile(&here().join("tests/c/calls.c"), "calls", &built());
    let ended = Command::new(&program).status().expect("the program starts");
    // The exit status is the number of the first check that failed.
    assert_eq!(ended.code(), Some(0), "a check of calls.c failed");
}

/// The first C program of the README prints what the README says.
#[test]
fn the_readme_from_c() {
    assert_readme_runs("readme", &built());
}

/// The same with what `make install` puts under a prefix, and with nothing else.
#[test]
fn the_readme_from_c_with_the_installed_library() {
    let prefix = Path::new(env!("CARGO_TARGET_TMPDIR")).join("installed");
    let made = Command::new("make")
        .env_remove("MAKEFLAGS") // of a `make` that runs these tests
        .arg("-C")
        .arg(here().join(".."))
        .arg("install")
        .arg(format!("PREFIX={}", prefix.display()))
        .output()
        .expect("there is a make");
    let said = String::from_utf8_lossy(&made.stderr);
    assert!(made.status.success(), "make install fails:\n{said}");
    assert_readme_runs("readme_installed", &installed(&prefix));
}

/// The archive needs no name from outside: it links where there is no other library.
#[test]
fn the_archive_by_itself() {
    let ended = Command::new("cc")
        .args(["-shared", "-nostdlib", "-Wl,-z,defs", "-Wl,--whole-archive"])
        .arg(env!("DACM_ARCHIVE"))
        .arg("-o")
        .arg(Path::new(env!("CARGO_TARGET_TMPDIR")).join("alone.so"))
        .output()
        .expect("there is a C compiler called cc");
    let said = String::from_utf8_lossy(&ended.stderr);
    assert!(ended.status.success(), "the archive needs more:\n{said}");
}

fn assert_readme_runs(name: &str, library: &[String]) {
    let readme = std::fs::read_to_string(here().join("../README.md")).expect("there is a README");
    let source = Path::new(env!("CARGO_TARGET_TMPDIR")).join(format!("{name}.c"));
    std::fs::write(&source, block(&readme, "c")).expect("cargo's directory for tests takes a file");
    let program = compile(&source, name, library);
    let ended = Command::new(&program).output().expect("the program starts");
    assert!(ended.status.success());
    assert_eq!(
        String::from_utf8_lossy(&ended.stdout),
        block(&readme, "text")
    );
}

/// The arguments by which a compiler finds header and archive where they are built.
fn built() -> Vec<String> {
    let include = here().join("../include");
    vec![
        format!("-I{}", include.display()),
        env!("DACM_ARCHIVE").into(),
    ]
}

/// The same for an installed library: what `pkg-config` says, or by hand where that is missing.
fn installed(prefix: &Path) -> Vec<String> {
    let asked = Command::new("pkg-config")
        .env("PKG_CONFIG_PATH", prefix.join("lib/pkgconfig"))
        .args(["--cflags", "--libs", "dacm"])
        .arg(concat!("dacm = ", env!("CARGO_PKG_VERSION")))
        .output();
    match asked {
        Ok(said) => {
            assert!(said.status.success(), "pkg-config does not find dacm");
            let flags = String::from_utf8_lossy(&said.stdout);
            flags.split_whitespace().map(String::from).collect()
        }
        Err(error) if error.kind() == ErrorKind::NotFound => vec![
            format!("-I{}/include", prefix.display()),
            format!("-L{}/lib", prefix.display()),
            "-ldacm".into(),
        ],
        Err(error) => panic!("pkg-config does not start: {error}"),
    }
}

/// The header names the same numbers as the crate, no fewer and no others.
#[test]
fn the_names_of_the_header() {
    let header = header();
    let numbers = macros(&header).filter_map(|(name, value)| Some((name.into(), number(value)?)));
    let refusals = (1..=7)
        .chain(10..=21)
        .map(|number| (name_in_c(Refusal::from_number(number)), number));
    let others = [
        ("DONE", 0),
        ("READ", Privileges::READ.0),
        ("REPLACE", Privileges::REPLACE.0),
        ("DISCARD", Privileges::DISCARD.0),
        ("ANNOTATE", Privileges::ANNOTATE.0),
        ("CREATE_ITEMS", Privileges::CREATE_ITEMS.0),
        ("DEFINE_SUBJECTS", Privileges::DEFINE_SUBJECTS.0),
        ("EDIT_LIST", Privileges::EDIT_LIST.0),
        ("ALL", Privileges::ALL.0),
        ("ITSELF", Kind::ITSELF.0),
        ("GROUP", Kind::GROUP.0),
        ("OWNER", Kind::OWNER.0),
        ("EVERYONE", Kind::EVERYONE.0),
        ("IS_LIST", Flags::IS_LIST.0),
        ("LOCKED", Flags::LOCKED.0),
        ("FOLDER_APPLIES", Flags::FOLDER_APPLIES.0),
        ("RULE_CUSTODIAN", Rule::Custodian.number()),
        ("RULE_OWNER_LINE", Rule::OwnerLine.number()),
        ("RULE_OWN_LINE", Rule::OwnLine.number()),
        (
            "RULE_GROUP_LINE",
            Rule::GroupLine(Subject::CUSTODIAN).number(),
        ),
        ("RULE_NOTHING_FOUND", Rule::NothingFound.number()),
        // In the crate, steps are an `Option`.
        ("STEPS_OUTSIDE", u32::MAX),
    ];
    let others = others.map(|(name, number)| (name.to_string(), number));
    let in_header: BTreeMap<String, u32> = numbers.collect();
    let in_crate: BTreeMap<String, u32> = refusals.chain(others).collect();
    assert_eq!(in_header, in_crate);
}

/// The header lists the refusals in the order of the questions.
#[test]
fn the_order_of_the_header() {
    let header = header();
    let numbers = macros(&header).filter_map(|(name, value)| Some((name, number(value)?)));
    let listed: Vec<Refusal> = numbers
        .map(|(name, number)| (name, Refusal::from_number(number)))
        .filter(|(name, refusal)| *name == name_in_c(*refusal))
        .map(|(_, refusal)| refusal)
        .collect();
    assert_eq!(listed.len(), 19);
    assert!(listed.is_sorted(), "{listed:?}");
}

#[test]
fn the_positions_of_the_header() {
    let header = header();
    let macros: BTreeMap<&str, &str> = macros(&header).collect();
    assert_eq!(macros["POSITIONS"], Privileges::POSITIONS.to_string());
}

#[test]
fn the_version_of_the_header() {
    let header = header();
    let macros: BTreeMap<&str, &str> = macros(&header).collect();
    let text = format!("\"{}\"", env!("CARGO_PKG_VERSION"));
    assert_eq!(macros["VERSION"], text);
    assert_eq!(macros["VERSION_MAJOR"], env!("CARGO_PKG_VERSION_MAJOR"));
    assert_eq!(macros["VERSION_MINOR"], env!("CARGO_PKG_VERSION_MINOR"));
    assert_eq!(macros["VERSION_PATCH"], env!("CARGO_PKG_VERSION_PATCH"));
}

fn header() -> String {
    std::fs::read_to_string(here().join("../include/dacm.h")).expect("there is a header")
}

/// The macros of the header that have a value, without the prefix of their names.
fn macros(header: &str) -> impl Iterator<Item = (&str, &str)> {
    header.lines().filter_map(|line| {
        let (name, rest) = line.strip_prefix("#define DACM_")?.split_once(' ')?;
        Some((name, rest.split_whitespace().next()?))
    })
}

/// The number of a value such as `UINT32_C(20)` or `UINT32_C(0x40)`.
fn number(value: &str) -> Option<u32> {
    let digits = value.strip_prefix("UINT32_C(")?.strip_suffix(')')?;
    let number = match digits.strip_prefix("0x") {
        Some(digits) => u32::from_str_radix(digits, 16),
        None => digits.parse(),
    };
    Some(number.unwrap_or_else(|_| panic!("{value} is no number of 32 bits")))
}

/// `NOT_A_LIST` for `NotAList`.
fn name_in_c(refusal: Refusal) -> String {
    let mut snake = String::new();
    for letter in format!("{refusal:?}").chars() {
        if letter.is_uppercase() && !snake.is_empty() {
            snake.push('_');
        }
        snake.push(letter.to_ascii_uppercase());
    }
    snake
}

/// The first fenced block of a language.
fn block<'a>(text: &'a str, language: &str) -> &'a str {
    let (_, rest) = text
        .split_once(&format!("```{language}\n"))
        .expect("there is a block in that language");
    rest.split_once("```").expect("the block ends").0
}

/// Compiles a C program with the library and returns its path.
fn compile(source: &Path, name: &str, library: &[String]) -> PathBuf {
    let directory = Path::new(env!("CARGO_TARGET_TMPDIR")).join("c_program");
    std::fs::create_dir_all(&directory).expect("cargo's directory for tests takes another");
    let program = directory.join(name);
    let ended = Command::new("cc")
        .args(FLAGS)
        .arg(source)
        .args(library) // behind the source, because a linker goes from left to right
        .arg("-o")
        .arg(&program)
        .output()
        .expect("there is a C compiler called cc");
    let said = String::from_utf8_lossy(&ended.stderr);
    assert!(ended.status.success(), "cc refuses {source:?}:\n{said}");
    program
}

fn here() -> &'static Path {
    Path::new(env!("CARGO_MANIFEST_DIR"))
}
