//! On what machine, with what compilers and when the times were measured.

use std::fs;
use std::process::Command;

pub fn print_setting() {
    println!("Machine: {}, {} processors.", processor(), processors());
    println!(
        "Compilers: {}; {}.",
        said_by("rustc", "--version"),
        said_by("rt", "version")
    );
    println!("Date: {} (UTC).", said_by("date", "-u +%F"));
    println!();
}

fn processor() -> String {
    let text = fs::read_to_string("/proc/cpuinfo").unwrap_or_default();
    let named = text.lines().find(|line| line.starts_with("model name"));
    let name = named.and_then(|line| line.split_once(": "));
    name.map_or("unknown".into(), |(_, name)| name.trim().into())
}

fn processors() -> String {
    std::thread::available_parallelism().map_or("unknown".into(), |count| count.to_string())
}

/// The first line that a command prints.
fn said_by(program: &str, arguments: &str) -> String {
    let ended = Command::new(program).args(arguments.split(' ')).output();
    let printed = ended.map(|ended| String::from_utf8_lossy(&ended.stdout).into_owned());
    let line = printed.unwrap_or_default();
    match line.lines().next() {
        Some(line) => line.trim().into(),
        None => format!("{program} unknown"),
    }
}
