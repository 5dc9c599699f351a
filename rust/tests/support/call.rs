//! A call with its arguments, made on the library, on the twin or on the yardstick.

use super::explanation::{steps_number, Explanation};
use crate::{twin, yardstick};
use dacm::{Flags, Item, Kind, Privileges, Refusal, Role, Subject};
use std::ops::Range;

/// One variant for each function of the header. The arguments are plain numbers, so that any number
/// can be passed.
#[rustfmt::skip] // one call a line, to be read as a table
#[derive(Clone, Copy, Debug)]
pub enum Call {
    Check,
    OperationSet { subject: u32, role: u32 },
    PermissionSet { subject: u32, role: u32, item: u32 },
    Explain { subject: u32, role: u32, item: u32 },
    CountHolders { item: u32, entries: usize },
    ListCount { list: u32 },
    LinesOf { list: u32 },
    FindEditor { list: u32 },
    StepsUp { subject: u32, root: u32 },
    DefineSubject { caller: u32, role: u32, parent: u32, privileges: u32 },
    SetGrant { caller: u32, receiver: u32, role: u32, domain: u32, privileges: u32 },
    RemoveGrant { caller: u32, receiver: u32, role: u32 },
    SetLine { caller: u32, role: u32, list: u32, kind: u32, subject: u32, privileges: u32 },
    RemoveLine { caller: u32, role: u32, list: u32, kind: u32, subject: u32 },
    CreateItem { caller: u32, role: u32, list: u32, flags: u32, folder: u32 },
    Bind { caller: u32, item: u32, list: u32 },
    HandOver { caller: u32, item: u32, owner: u32 },
}

/// What a call answered. Only the lines of a list have a slice of the image that is not empty. Only
/// explain has an explanation, and only count holders has counts, also where they are refused.
#[derive(Clone, Debug, PartialEq, Eq)]
pub struct Outcome {
    pub number: u32,
    pub result: u32,
    pub slice: Range<usize>,
    pub explanation: Option<Explanation>,
    pub counts: Option<Counts>,
}

impl Outcome {
    pub fn new(number: u32, result: u32) -> Outcome {
        Outcome {
            number,
            result,
            slice: 0..0,
            explanation: None,
            counts: None,
        }
    }
}

impl From<Explanation> for Outcome {
    fn from(explanation: Explanation) -> Outcome {
        Outcome {
            explanation: Some(explanation),
            ..Outcome::new(explanation.number, 0)
        }
    }
}

/// The entries lent to count holders, as they are after the call. Behind those that are lent there
/// are more, which the call must not touch.
#[derive(Clone, Debug, PartialEq, Eq)]
pub struct Counts {
    entries: [u32; Counts::MOST],
    lent: usize,
}

impl Counts {
    /// How many entries the call demands.
    pub const POSITIONS: usize = 32;

    /// More than a test lends.
    const MOST: usize = 65;

    /// What every entry holds before the call: more than there are subjects in any image.
    pub const BEFORE: u32 = 0xa5a5_a5a5;

    pub fn lent(&self) -> &[u32] {
        &self.entries[..self.lent]
    }

    /// Does every entry hold what it held before the call?
    pub fn are_untouched(&self) -> bool {
        self.entries == [Counts::BEFORE; Counts::MOST]
    }
}

/// Lends so many entries to a call, and adds to its outcome what they hold afterwards. It is not
/// inlined, so that in the benchmark no other call pays for the entries.
#[inline(never)]
pub fn with_counts<A: Into<Outcome>>(
    entries: usize,
    call: impl FnOnce(&mut [u32]) -> A,
) -> Outcome {
    let mut counts = Counts {
        entries: [Counts::BEFORE; Counts::MOST],
        lent: entries,
    };
    let answer = call(&mut counts.entries[..entries]);
    Outcome {
        counts: Some(counts),
        ..answer.into()
    }
}

/// Makes outcomes of what an implementation in Rust answers. They are modules with the same
/// functions and fields, and have no type in common that a function could take.
macro_rules! outcomes_of {
    ($module:ident) => {
        impl From<$module::Answer> for Outcome {
            fn from(answer: $module::Answer) -> Outcome {
                Outcome::new(answer.number, answer.result)
            }
        }

        impl From<$module::Explanation> for Outcome {
            fn from(answer: $module::Explanation) -> Outcome {
                let explanation = Explanation {
                    number: answer.number,
                    rule: answer.rule,
                    group: answer.group,
                    rule_set: answer.rule_set,
                    everyone_set: answer.everyone_set,
                    role_set: answer.role_set,
                    operations: answer.operations,
                    steps: answer.steps,
                    folder: answer.folder,
                };
                explanation.into()
            }
        }
    };
}

outcomes_of!(twin);
outcomes_of!(yardstick);

/// Makes a call on an implementation in Rust.
#[rustfmt::skip]
macro_rules! made_on {
    ($module:ident, $call:expr, $image:expr) => {{
        let (call, image): (&Call, &mut [u8]) = ($call, $image);
        match *call {
            Call::Check =>
                $module::check(image).into(),
            Call::OperationSet { subject, role } =>
                $module::operation_set(image, subject, role).into(),
            Call::PermissionSet { subject, role, item } =>
                $module::permission_set(image, subject, role, item).into(),
            Call::Explain { subject, role, item } =>
                $module::explain(image, subject, role, item).into(),
            Call::CountHolders { item, entries } =>
                with_counts(entries, |counts| $module::count_holders(image, item, counts)),
            Call::ListCount { list } =>
                $module::list_count(image, list).into(),
            Call::LinesOf { list } =>
                lines_at($module::list_start(image, list), $module::list_count(image, list).into()),
            Call::FindEditor { list } =>
                $module::find_editor(image, list).into(),
            Call::StepsUp { subject, root } =>
                $module::steps_up(image, subject, root).into(),
            Call::DefineSubject { caller, role, parent, privileges } =>
                $module::define_subject(image, caller, role, parent, privileges).into(),
            Call::SetGrant { caller, receiver, role, domain, privileges } =>
                $module::set_grant(image, caller, receiver, role, domain, privileges).into(),
            Call::RemoveGrant { caller, receiver, role } =>
                $module::remove_grant(image, caller, receiver, role).into(),
            Call::SetLine { caller, role, list, kind, subject, privileges } =>
                $module::set_line(image, caller, role, list, kind, subject, privileges).into(),
            Call::RemoveLine { caller, role, list, kind, subject } =>
                $module::remove_line(image, caller, role, list, kind, subject).into(),
            Call::CreateItem { caller, role, list, flags, folder } =>
                $module::create_item(image, caller, role, list, flags, folder).into(),
            Call::Bind { caller, item, list } =>
                $module::bind(image, caller, item, list).into(),
            Call::HandOver { caller, item, owner } =>
                $module::hand_over(image, caller, item, owner).into(),
        }
    }};
}

impl Call {
    pub const NAMES: [&'static str; 17] = [
        // Those that ask.
        "check",
        "operation_set",
        "permission_set",
        "explain",
        "count_holders",
        "list_count",
        "lines_of",
        "find_editor",
        "steps_up",
        // Those that write subjects and grants.
        "define_subject",
        "set_grant",
        "remove_grant",
        // Those that write lines.
        "set_line",
        "remove_line",
        // Those that write items.
        "create_item",
        "bind",
        "hand_over",
    ];

    /// The first of the names above whose call writes the image.
    pub const FIRST_WRITING: usize = 9;

    /// Which of the names above is the call's.
    fn index(&self) -> usize {
        match self {
            Call::Check => 0,
            Call::OperationSet { .. } => 1,
            Call::PermissionSet { .. } => 2,
            Call::Explain { .. } => 3,
            Call::CountHolders { .. } => 4,
            Call::ListCount { .. } => 5,
            Call::LinesOf { .. } => 6,
            Call::FindEditor { .. } => 7,
            Call::StepsUp { .. } => 8,
            Call::DefineSubject { .. } => 9,
            Call::SetGrant { .. } => 10,
            Call::RemoveGrant { .. } => 11,
            Call::SetLine { .. } => 12,
            Call::RemoveLine { .. } => 13,
            Call::CreateItem { .. } => 14,
            Call::Bind { .. } => 15,
            Call::HandOver { .. } => 16,
        }
    }

    pub fn name(&self) -> &'static str {
        Call::NAMES[self.index()]
    }

    pub fn only_asks(&self) -> bool {
        self.index() < Call::FIRST_WRITING
    }

    /// Makes a call that only asks, on the library.
    #[rustfmt::skip]
    pub fn ask_library(&self, image: &[u8]) -> Outcome {
        match *self {
            Call::Check =>
                done(dacm::check(image)),
            Call::OperationSet { subject, role } =>
                with_result(dacm::operation_set(image, Subject(subject), Role(role)).map(|set| set.0)),
            Call::PermissionSet { subject, role, item } =>
                with_result(dacm::permission_set(image, Subject(subject), Role(role), Item(item)).map(|set| set.0)),
            Call::Explain { subject, role, item } =>
                Explanation::from(dacm::explain(image, Subject(subject), Role(role), Item(item))).into(),
            Call::CountHolders { item, entries } =>
                with_counts(entries, |counts| library::count_holders(image, item, counts)),
            Call::ListCount { list } =>
                with_result(dacm::list_count(image, Item(list))),
            Call::LinesOf { list } =>
                lines_of_library(image, list),
            Call::FindEditor { list } =>
                with_result(dacm::find_editor(image, Item(list)).map(|editor| editor.0)),
            Call::StepsUp { subject, root } =>
                with_result(dacm::steps_up(image, Subject(subject), Subject(root)).map(steps_number)),
            _ => panic!("{self:?} does not only ask"),
        }
    }

    /// Makes any call, on the library.
    #[rustfmt::skip]
    pub fn on_library(&self, image: &mut [u8]) -> Outcome {
        match *self {
            Call::DefineSubject { caller, role, parent, privileges } =>
                with_result(dacm::define_subject(image, Subject(caller), Role(role), Subject(parent),
                    Privileges(privileges)).map(|defined| defined.0)),
            Call::SetGrant { caller, receiver, role, domain, privileges } =>
                done(dacm::set_grant(image, Subject(caller), Subject(receiver), Role(role), Subject(domain),
                    Privileges(privileges))),
            Call::RemoveGrant { caller, receiver, role } =>
                done(dacm::remove_grant(image, Subject(caller), Subject(receiver), Role(role))),
            Call::SetLine { caller, role, list, kind, subject, privileges } =>
                done(dacm::set_line(image, Subject(caller), Role(role), Item(list), Kind(kind), Subject(subject),
                    Privileges(privileges))),
            Call::RemoveLine { caller, role, list, kind, subject } =>
                done(dacm::remove_line(image, Subject(caller), Role(role), Item(list), Kind(kind), Subject(subject))),
            Call::CreateItem { caller, role, list, flags, folder } =>
                with_result(dacm::create_item(image, Subject(caller), Role(role), Item(list), Flags(flags),
                    Item(folder)).map(|created| created.0)),
            Call::Bind { caller, item, list } =>
                done(dacm::bind(image, Subject(caller), Item(item), Item(list))),
            Call::HandOver { caller, item, owner } =>
                done(dacm::hand_over(image, Subject(caller), Item(item), Subject(owner))),
            _ => self.ask_library(image),
        }
    }

    /// Makes any call, on the twin.
    pub fn on_twin(&self, image: &mut [u8]) -> Outcome {
        made_on!(twin, self, image)
    }

    /// Makes any call, on the yardstick.
    pub fn on_yardstick(&self, image: &mut [u8]) -> Outcome {
        made_on!(yardstick, self, image)
    }
}

fn with_result(answer: Result<u32, Refusal>) -> Outcome {
    match answer {
        Ok(result) => Outcome::new(0, result),
        Err(refusal) => Outcome::new(refusal.number(), 0),
    }
}

fn done(answer: Result<(), Refusal>) -> Outcome {
    with_result(answer.map(|()| 0))
}

/// Functions of the header, for what the crate does not show.
pub mod library {
    use super::Outcome;
    use dacm::Item;

    #[repr(C)]
    pub struct Answer {
        number: u32,
        result: u32,
    }

    impl From<Answer> for Outcome {
        fn from(answer: Answer) -> Outcome {
            Outcome::new(answer.number, answer.result)
        }
    }

    extern "C" {
        fn dacm_list_start(image: *const u8, length: usize, list: Item) -> usize;
        fn dacm_count_holders(
            image: *const u8,
            length: usize,
            item: Item,
            counts: *mut u32,
            entries: usize,
        ) -> Answer;
    }

    /// Offset 0 also where the call is refused.
    pub fn list_start(image: &[u8], list: u32) -> usize {
        // SAFETY: pointer and length are those of one slice.
        unsafe { dacm_list_start(image.as_ptr(), image.len(), Item(list)) }
    }

    /// With any number of entries. The crate always lends as many as there are positions.
    pub fn count_holders(image: &[u8], item: u32, counts: &mut [u32]) -> Answer {
        let (length, entries) = (image.len(), counts.len());
        let (image, counts) = (image.as_ptr(), counts.as_mut_ptr());
        // SAFETY: both pointers and lengths are those of one slice, and one of these is exclusive.
        unsafe { dacm_count_holders(image, length, Item(item), counts, entries) }
    }
}

fn lines_of_library(image: &[u8], list: u32) -> Outcome {
    let start = library::list_start(image, list);
    match dacm::lines_of(image, Item(list)) {
        Ok(lines) => {
            let shown = lines.as_ptr() as usize - image.as_ptr() as usize;
            assert_eq!(shown, start, "the slice shown begins where the lines do");
            Outcome {
                slice: start..start + lines.len(),
                ..Outcome::new(0, 0)
            }
        }
        Err(refusal) => Outcome {
            slice: start..start,
            ..Outcome::new(refusal.number(), 0)
        },
    }
}

/// The lines that begin at an offset, as many as were counted.
fn lines_at(start: usize, counted: Outcome) -> Outcome {
    Outcome {
        slice: start..start + 16 * counted.result as usize,
        ..Outcome::new(counted.number, 0)
    }
}
