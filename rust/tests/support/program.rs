//! A program that is run on some input. What it prints is read up to a bound and for a limited time,
//! so that a faulty program can neither fill the memory nor hold up the tests.

use std::io::{Read, Write};
use std::process::{Child, Command, ExitStatus, Stdio};
use std::sync::mpsc;
use std::thread;
use std::time::{Duration, Instant};

/// Runs the program and compares what it prints with the text. An error says what is wrong. The
/// program may stop reading before all is written to it; this is no fault.
pub fn compare_printed(
    program: &mut Command,
    input: &[u8],
    text: &[u8],
    limit: Duration,
) -> Result<(), String> {
    let deadline = Instant::now() + limit;
    let mut child = program
        .stdin(Stdio::piped())
        .stdout(Stdio::piped())
        .spawn()
        .map_err(|fault| format!("{program:?} does not start: {fault}"))?;
    write_in_background(&mut child, input);
    let most = text.len() as u64 + 1;
    let printed = read_until(&mut child, most, deadline);
    let status = match &printed {
        Some(printed) if printed.len() <= text.len() => end_until(&mut child, deadline),
        _ => None,
    };
    if status.is_none() {
        kill(&mut child);
    }
    match (printed, status) {
        (Some(printed), _) if printed != text => Err(difference(&printed, text)),
        (Some(_), Some(status)) if status.success() => Ok(()),
        (Some(_), Some(status)) => Err(format!("the program ends with {status}")),
        _ => Err(format!("the program has not ended after {limit:?}")),
    }
}

/// Ends when the program has read the input or is gone.
fn write_in_background(child: &mut Child, input: &[u8]) {
    let mut pipe = child.stdin.take().expect("its input is a pipe");
    let input = input.to_vec();
    thread::spawn(move || {
        let _ = pipe.write_all(&input);
    });
}

/// What the program prints, at most so many bytes of it. None if it has not come to their end at the
/// deadline.
fn read_until(child: &mut Child, most: u64, deadline: Instant) -> Option<Vec<u8>> {
    let pipe = child.stdout.take().expect("its output is a pipe");
    let (sender, receiver) = mpsc::channel();
    thread::spawn(move || {
        let mut printed = Vec::new();
        let read = pipe.take(most).read_to_end(&mut printed);
        let _ = sender.send(read.map(|_| printed));
    });
    let left = deadline.saturating_duration_since(Instant::now());
    receiver.recv_timeout(left).ok()?.ok()
}

/// How the program ended, if it has by the deadline.
fn end_until(child: &mut Child, deadline: Instant) -> Option<ExitStatus> {
    loop {
        if let Some(status) = child.try_wait().expect("the program can be waited for") {
            return Some(status);
        }
        if Instant::now() > deadline {
            return None;
        }
        // It has closed its output, so it is about to end.
        thread::sleep(Duration::from_micros(50));
    }
}

fn kill(child: &mut Child) {
    // It may have ended by itself meanwhile.
    let _ = child.kill();
    child.wait().expect("the program can be waited for");
}

/// Names the line only, because the texts are too long to print.
pub fn difference(printed: &[u8], text: &[u8]) -> String {
    let pairs = printed.iter().zip(text);
    let same = pairs.take_while(|(one, other)| one == other).count();
    let line = 1 + text[..same].iter().filter(|&&byte| byte == b'\n').count();
    if same == text.len() {
        format!("longer than it should be: there is more in line {line}")
    } else if same == printed.len() {
        format!("shorter than it should be: it ends in line {line}")
    } else {
        format!("line {line} is the first that differs")
    }
}
