//! The time of a report, for each side: of a whole process that reads the image and prints.

use crate::sides::{report_program, Side, SIDES};
use crate::timing::Times;
use std::fs::{self, File};
use std::io::{self, Read, Write};
use std::os::fd::AsFd;
use std::path::Path;
use std::process::{exit, ChildStdout, Command, Stdio};
use std::time::Instant;

/// How many runs each side has if reports are quick, and if they are slow.
pub const MOST_RUNS: usize = 5;
pub const FEWEST_RUNS: usize = 3;

/// All runs of the slowest side together take about this long at most, unless there are only the
/// fewest.
const ROW_SECONDS: f64 = 5.0;

/// One byte more than the longest image has, so that a longer input is refused as too long.
const INPUT_BYTES: u64 = 65_537;

/// Prints a side's report on the image from standard input, as the report program prints the
/// library's.
pub fn print_report(side: Side) -> io::Result<()> {
    let mut image = Vec::new();
    io::stdin().take(INPUT_BYTES).read_to_end(&mut image)?;
    // Rust's own standard output would search each block for its last end of line.
    let mut output = File::from(io::stdout().as_fd().try_clone_to_owned()?);
    side.write_report(&image, &mut output)
}

/// Ends the program if there is no report program to measure.
pub fn stop_without_report_program() {
    if !report_program().is_file() {
        eprintln!("The report program is missing: `make bench` in the directory above builds it.");
        exit(1);
    }
}

/// The best times of some runs, in which the sides take turns.
pub fn time_report(image: &[u8]) -> io::Result<Times> {
    let file = Path::new(env!("CARGO_TARGET_TMPDIR")).join("measured.img");
    fs::write(&file, image)?;
    let start = Instant::now();
    assert_as_twin(Side::Library, image, &file)?;
    let estimate = start.elapsed().as_secs_f64();
    assert_as_twin(Side::Yardstick, image, &file)?;
    let runs = ((ROW_SECONDS / estimate) as usize).clamp(FEWEST_RUNS, MOST_RUNS);
    let mut best = Times::NONE_YET;
    for _ in 0..runs {
        for side in SIDES {
            best.add(side, time_process(side.report_process()?, &file)?);
        }
    }
    Ok(best)
}

/// From the start of the process to its end. Its output is thrown away.
fn time_process(mut command: Command, image: &Path) -> io::Result<f64> {
    command.stdin(File::open(image)?).stdout(Stdio::null());
    let start = Instant::now();
    let status = command.status()?;
    let taken = start.elapsed();
    assert!(status.success(), "{command:?} ended with {status}");
    Ok(taken.as_secs_f64())
}

/// Compares what a side's process prints with the twin's report.
fn assert_as_twin(side: Side, image: &[u8], file: &Path) -> io::Result<()> {
    let mut command = side.report_process()?;
    command.stdin(File::open(file)?).stdout(Stdio::piped());
    let mut process = command.spawn()?;
    let printed = process.stdout.take().expect("the output is piped");
    let mut compared = Compared { side, printed };
    Side::Twin.write_report(image, &mut compared)?;
    let more = compared.printed.read(&mut [0])?;
    let name = side.name();
    assert_eq!(more, 0, "the {name}'s report is longer than the twin's");
    assert!(process.wait()?.success(), "{command:?} failed");
    Ok(())
}

/// Takes the twin's report piece by piece, and compares each piece with the next bytes that the other
/// side printed.
struct Compared {
    side: Side,
    printed: ChildStdout,
}

impl Write for Compared {
    fn write(&mut self, piece: &[u8]) -> io::Result<usize> {
        let side = self.side.name();
        let mut next = vec![0; piece.len()];
        let as_long = self.printed.read_exact(&mut next).is_ok();
        assert!(as_long, "the {side}'s report is shorter than the twin's");
        assert!(next == piece, "the {side}'s report differs from the twin's");
        Ok(piece.len())
    }

    fn flush(&mut self) -> io::Result<()> {
        Ok(())
    }
}
