//! The library stays inside what it is lent: the image, and entries for counts. Directly before or
//! behind these is memory that nobody may touch, so an access one byte too far ends the test
//! program. During a call that only asks, the image itself may only be read.

mod support;
mod twin;
mod yardstick;

use std::cell::Cell;
use std::os::unix::process::ExitStatusExt;
use std::process::Command;
use std::{env, ptr};
use support::boundary::{boundary_images, telling_tables, Boundary};
use support::call::{library, with_counts, Call, Counts, Outcome};
use support::choose::Chooser;
use support::compare::compare_made_by;
use support::damage::{damage, telling_values};
use support::libraries::Size;
use support::random::Random;
use support::rounds;
use support::sample::sample;
use support::tables::set_field;

/// Linux on x86-64.
mod system {
    pub const PAGE_BYTES: usize = 4096;
    pub const NO_ACCESS: i32 = 0;
    pub const READ: i32 = 1;
    pub const READ_AND_WRITE: i32 = 3;
    pub const PRIVATE_AND_ANONYMOUS: i32 = 0x22;
    pub const STANDARD_ERROR: i32 = 2;
    pub const SEGMENTATION_FAULT: i32 = 11;
    pub const DEFAULT_ACTION: usize = 0;

    extern "C" {
        pub fn mmap(
            address: *mut u8,
            length: usize,
            protection: i32,
            flags: i32,
            file: i32,
            offset: i64,
        ) -> *mut u8;
        pub fn mprotect(address: *mut u8, length: usize, protection: i32) -> i32;
        pub fn munmap(address: *mut u8, length: usize) -> i32;
        pub fn signal(number: i32, handler: usize) -> usize;
        pub fn write(file: i32, bytes: *const u8, count: usize) -> isize;
    }
}

/// Which of the two guard pages touches what is lent.
#[derive(Clone, Copy, Debug)]
enum Side {
    AfterTheFirst,
    BeforeTheSecond,
}

const SIDES: [Side; 2] = [Side::AfterTheFirst, Side::BeforeTheSecond];

/// Pages for what is lent to a call, with a page on either side that nobody may touch.
struct GuardedPages {
    first: *mut u8,
    inner_bytes: usize,
}

impl GuardedPages {
    fn new(inner_pages: usize) -> GuardedPages {
        let inner_bytes = inner_pages * system::PAGE_BYTES;
        // SAFETY: the system chooses fresh pages, which nobody else uses.
        let first = unsafe {
            system::mmap(
                ptr::null_mut(),
                inner_bytes + 2 * system::PAGE_BYTES,
                system::NO_ACCESS,
                system::PRIVATE_AND_ANONYMOUS,
                -1,
                0,
            )
        };
        assert_ne!(first as isize, -1, "the system gives no pages");
        print_the_case_of_a_fault();
        GuardedPages { first, inner_bytes }
    }

    fn inner(&self) -> *mut u8 {
        self.first.wrapping_add(system::PAGE_BYTES)
    }

    fn allow(&mut self, protection: i32) {
        // SAFETY: these are pages of our own, and no reference into them is alive: references are
        // made only after this call.
        let answer = unsafe { system::mprotect(self.inner(), self.inner_bytes, protection) };
        assert_eq!(answer, 0, "the system keeps the pages as they were");
    }

    /// The slice of this length that touches the guard page on this side. A page ends where a value
    /// of either type may begin, so it is aligned.
    fn slice<T>(&self, length: usize, side: Side) -> *mut [T] {
        let bytes = length * size_of::<T>();
        assert!(bytes <= self.inner_bytes, "the slice is too long");
        let address = match side {
            Side::AfterTheFirst => self.inner(),
            Side::BeforeTheSecond => self.inner().wrapping_add(self.inner_bytes - bytes),
        };
        ptr::slice_from_raw_parts_mut(address.cast(), length)
    }

    /// Copies values into the pages, where they then may be read and written.
    fn put<T: Copy>(&mut self, values: &[T], side: Side) -> *mut [T] {
        let copy = self.slice(values.len(), side);
        self.allow(system::READ_AND_WRITE);
        // SAFETY: the inner pages may be written now, and the values fit into them.
        unsafe { ptr::copy_nonoverlapping(values.as_ptr(), copy.cast(), values.len()) };
        copy
    }
}

impl Drop for GuardedPages {
    fn drop(&mut self) {
        let bytes = self.inner_bytes + 2 * system::PAGE_BYTES;
        // SAFETY: the pages are our own, and no reference into them is left.
        unsafe { system::munmap(self.first, bytes) };
    }
}

/// What is lent to a call, each in pages of its own.
struct Lent {
    image: GuardedPages,
    counts: GuardedPages,
}

impl Lent {
    fn new() -> Lent {
        Lent {
            // Enough for the longest image, and for one that is too long.
            image: GuardedPages::new(17),
            counts: GuardedPages::new(1),
        }
    }

    /// Makes the call on a copy of the image in the guarded pages, and copies back what the call
    /// left.
    fn call(&mut self, image: &mut [u8], side: Side, call: &Call) -> Outcome {
        let copy = self.image.put(image, side);
        let outcome = if call.only_asks() {
            self.image.allow(system::READ);
            // SAFETY: the copy is there, nobody writes it, and the reference is gone before the
            // protection of the pages changes again.
            self.ask(unsafe { &*copy }, side, call)
        } else {
            // SAFETY: the copy is there, and nobody else uses it.
            call.on_library(unsafe { &mut *copy })
        };
        // SAFETY: the inner pages may be read in both cases.
        image.copy_from_slice(unsafe { &*copy });
        outcome
    }

    /// Makes a call that only asks. Entries for counts are lent from guarded pages too.
    fn ask(&mut self, image: &[u8], side: Side, call: &Call) -> Outcome {
        let Call::CountHolders { item, entries } = *call else {
            return call.ask_library(image);
        };
        with_counts(entries, |counts| {
            let copy = self.counts.put(counts, side);
            // SAFETY: the copy is there, and nobody else uses it.
            let copy = unsafe { &mut *copy };
            let answer = library::count_holders(image, item, copy);
            counts.copy_from_slice(copy);
            answer
        })
    }

    /// Makes the call at either guard page and compares it with the twin each time.
    fn compare(&mut self, image: &[u8], call: &Call, seed: &str) {
        for side in SIDES {
            let case = format!("{seed}, {side:?}: {call:?}");
            during(&case, || {
                compare_made_by(&mut image.to_vec(), call, &case, |image| {
                    self.call(image, side, call)
                })
            });
        }
    }

    fn compare_each_call(&mut self, image: &[u8], chooser: &mut Chooser, seed: &str) {
        for index in 0..Call::NAMES.len() {
            let call = chooser.call(index);
            self.compare(image, &call, seed);
        }
    }
}

thread_local! {
    /// What this thread is about to try, for the message of a fault.
    static CASE: Cell<&'static str> = const { Cell::new("nothing") };
}

/// Does something that may end in a fault. The message of the fault then names the case.
fn during<R>(case: &str, act: impl FnOnce() -> R) -> R {
    /// Also where `act` panics, the case is forgotten before it ends.
    struct Forget;

    impl Drop for Forget {
        fn drop(&mut self) {
            CASE.set("nothing");
        }
    }

    let _forget = Forget;
    // SAFETY: the reference is replaced when this function ends, and the case outlives that.
    CASE.set(unsafe { &*ptr::from_ref(case) });
    act()
}

/// From now on, a fault prints its case before it ends the program.
fn print_the_case_of_a_fault() {
    extern "C" fn print(number: i32) {
        let case = CASE.get();
        // SAFETY: both functions may be called while a signal is handled. When this returns, the
        // fault happens again, and its default action ends the program.
        unsafe {
            for text in ["\noutside what is lent: ", case, "\n"] {
                system::write(system::STANDARD_ERROR, text.as_ptr(), text.len());
            }
            system::signal(number, system::DEFAULT_ACTION);
        }
    }
    let handler = print as extern "C" fn(i32) as usize;
    // SAFETY: the handler is a function of the type that the system calls.
    unsafe { system::signal(system::SEGMENTATION_FAULT, handler) };
}

#[test]
fn accepted_images() {
    on_libraries("a small library", rounds(10_000), Size::small);
    on_libraries("the longest library", rounds(8), Size::longest);
}

fn on_libraries(name: &str, count: u64, size: impl Fn(&mut Random) -> Size) {
    let mut lent = Lent::new();
    for seed in 0..count {
        let random = &mut Random::new(seed);
        let tables = &size(random).library(random);
        let chooser = &mut Chooser { random, tables };
        lent.compare_each_call(&tables.image(), chooser, &format!("{name}, seed {seed}"));
    }
}

#[test]
fn damaged_images() {
    let mut lent = Lent::new();
    for seed in 0..rounds(15_000) {
        let random = &mut Random::new(seed);
        let tables = &Size::small(random).library(random);
        let mut image = tables.image();
        damage(random, &mut image);
        let chooser = &mut Chooser { random, tables };
        let seed = format!("a damaged library, seed {seed}");
        lent.compare_each_call(&image, chooser, &seed);
    }
}

/// Every header field of the sample, replaced in turn by every value that is likely to lead a call
/// astray.
#[test]
fn damaged_headers() {
    let mut lent = Lent::new();
    let random = &mut Random::new(0);
    let tables = &sample();
    for field in 0..9 {
        for value in telling_values(&tables.image()) {
            let mut image = tables.image();
            set_field(&mut image, field, value);
            let chooser = &mut Chooser { random, tables };
            lent.compare_each_call(&image, chooser, &format!("header field {field} is {value}"));
        }
    }
}

/// The sample cut off or made longer, once with its old total and once with the new length as its
/// total.
#[test]
fn many_lengths() {
    let mut lent = Lent::new();
    let random = &mut Random::new(0);
    let tables = &sample();
    let around_pages = [4_095, 4_096, 4_097, 8_191, 8_192, 8_193];
    for length in (0..=400).chain(around_pages) {
        let mut image = tables.image();
        image.resize(length, 0);
        let chooser = &mut Chooser { random, tables };
        lent.compare_each_call(&image, chooser, &format!("the sample as {length} bytes"));
        if length >= 36 {
            set_field(&mut image, 8, length as u32);
            lent.compare_each_call(&image, chooser, &format!("the sample as recorded {length}"));
        }
    }
}

#[test]
fn boundary_lengths_and_contents() {
    let mut lent = Lent::new();
    let random = &mut Random::new(0);
    for Boundary { name, image } in boundary_images() {
        let tables = &telling_tables(&image);
        let chooser = &mut Chooser { random, tables };
        lent.compare_each_call(&image, chooser, &name);
    }
}

/// The test below starts this program again; this variable then says which touch to try.
const TOUCH: &str = "DACM_TOUCH";

/// The guards work: a program that reads the byte before or behind the image, writes the image
/// while it may only be read, or writes an entry before or behind the counts, ends by a fault and
/// prints its case.
#[test]
fn a_touch_outside_ends_the_program() {
    if let Ok(touch) = env::var(TOUCH) {
        return try_to(&touch);
    }
    let on_image = ["read before", "read behind", "write inside"];
    let on_counts = ["write the entry before", "write the entry behind"];
    for touch in on_image.into_iter().chain(on_counts) {
        let program = env::current_exe().expect("this program has a path");
        let ended = Command::new(program)
            .args(["--exact", "a_touch_outside_ends_the_program"])
            .env(TOUCH, touch)
            .output()
            .expect("this program starts again");
        assert_eq!(ended.status.signal(), Some(system::SEGMENTATION_FAULT));
        let printed = String::from_utf8_lossy(&ended.stderr).into_owned();
        assert!(printed.contains(&format!("outside what is lent: {touch}")));
    }
}

fn try_to(touch: &str) {
    let mut lent = Lent::new();
    let (length, entries) = (37, Counts::POSITIONS);
    // After this call the image may only be read, and the counts may be written.
    let count = Call::CountHolders { item: 1, entries };
    lent.call(&mut vec![0; length], Side::AfterTheFirst, &count);
    let [first, last] = SIDES.map(|side| lent.image.slice::<u8>(length, side).cast::<u8>());
    let [first_entries, last_entries] =
        SIDES.map(|side| lent.counts.slice::<u32>(entries, side).cast::<u32>());
    // SAFETY: none of these accesses is safe. Each is meant to end the program.
    during(touch, || unsafe {
        match touch {
            "read before" => drop(first.wrapping_sub(1).read_volatile()),
            "read behind" => drop(last.wrapping_add(length).read_volatile()),
            "write inside" => first.write_volatile(1),
            "write the entry before" => first_entries.wrapping_sub(1).write_volatile(1),
            "write the entry behind" => last_entries.wrapping_add(entries).write_volatile(1),
            _ => panic!("{TOUCH} is {touch}"),
        }
    });
}

/// So many that their number is 32 in 32 bits. They may only be read, so they take no memory.
#[test]
fn far_too_many_entries() {
    let entries = (1 << 32) + Counts::POSITIONS;
    let pages = (entries * size_of::<u32>()).div_ceil(system::PAGE_BYTES);
    let mut counts = GuardedPages::new(pages);
    counts.allow(system::READ);
    // SAFETY: the entries are there, and nobody else uses them.
    let counts = unsafe { &mut *counts.slice(entries, Side::AfterTheFirst) };
    let image = sample().image();
    for (item, number) in [(1, 21), (5, 12)] {
        let case = format!("{entries} entries, item {item}");
        let outcome: Outcome =
            during(&case, || library::count_holders(&image, item, counts)).into();
        assert_eq!(outcome, Outcome::new(number, 0), "{case}");
    }
}
