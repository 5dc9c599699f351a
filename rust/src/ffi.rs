//! The functions of `dacm.h`, and the only unsafe code of this crate.

use crate::{Flags, Item, Kind, Privileges, Refusal, Role, Rule, Subject};

/// What a call answers: number 0 and its result, or the refusal and result 0.
#[repr(C)]
#[derive(Clone, Copy)]
pub(crate) struct Answer {
    number: u32,
    result: u32,
}

impl Answer {
    /// The result of the call, or its refusal.
    pub(crate) fn result(self) -> Result<u32, Refusal> {
        match self.number {
            0 => Ok(self.result),
            number => Err(Refusal::from_number(number)),
        }
    }

    /// The same for a call that names no result.
    pub(crate) fn done(self) -> Result<(), Refusal> {
        self.result().map(|_| ())
    }
}

/// What `dacm_explain` answers: number 0 and the explanation, or the refusal and 0 in every field.
#[repr(C)]
#[derive(Clone, Copy)]
pub(crate) struct Explanation {
    number: u32,
    rule: u32,
    group: Subject,
    rule_set: Privileges,
    everyone_set: Privileges,
    role_set: Privileges,
    operations: Privileges,
    steps: u32,
    folder: Item,
}

impl Explanation {
    /// The explanation, or the refusal of the call.
    pub(crate) fn result(self) -> Result<crate::Explanation, Refusal> {
        match self.number {
            0 => Ok(crate::Explanation {
                rule: Rule::from_number(self.rule, self.group),
                rule_set: self.rule_set,
                everyone_set: self.everyone_set,
                role_set: self.role_set,
                operations: self.operations,
                steps: steps(self.steps),
                folder: folder(self.folder),
            }),
            number => Err(Refusal::from_number(number)),
        }
    }
}

/// Stands for steps where a subject is outside of the tree.
const STEPS_OUTSIDE: u32 = u32::MAX;

/// The steps that a number stands for. It is proved of the archive that no count of them is as high as
/// the number for outside.
pub(crate) fn steps(number: u32) -> Option<u32> {
    (number != STEPS_OUTSIDE).then_some(number)
}

/// The folder that applies, if one does.
fn folder(item: Item) -> Option<Item> {
    (item != Item::NONE).then_some(item)
}

/// Declares functions of the header that take the image as const, and a safe function for each.
macro_rules! calls_that_ask {
    ($(fn $name:ident = $symbol:ident($($argument:ident: $type:ty),*) -> $answer:ty;)*) => {$(
        extern "C" {
            fn $symbol(image: *const u8, length: usize $(, $argument: $type)*) -> $answer;
        }

        pub(crate) fn $name(image: &[u8] $(, $argument: $type)*) -> $answer {
            // SAFETY: the header asks for a pointer that is not null, to as many bytes as the
            // length says, which nobody writes during the call. Pointer and length are those of
            // one shared slice, whose pointer is not null even if the slice is empty. The function
            // takes any bytes and any numbers. It is proved to stay inside the image and to write
            // nothing, and it keeps no pointer.
            unsafe { $symbol(image.as_ptr(), image.len() $(, $argument)*) }
        }
    )*};
}

/// Declares functions of the header that write the image, and a safe function for each.
macro_rules! calls_that_change {
    ($(fn $name:ident = $symbol:ident($($argument:ident: $type:ty),*);)*) => {$(
        extern "C" {
            fn $symbol(image: *mut u8, length: usize $(, $argument: $type)*) -> Answer;
        }

        pub(crate) fn $name(image: &mut [u8] $(, $argument: $type)*) -> Answer {
            // SAFETY: as for the calls that ask. The slice is exclusive, so nobody else reads or
            // writes the bytes. The function is proved to write only inside the image.
            unsafe { $symbol(image.as_mut_ptr(), image.len() $(, $argument)*) }
        }
    )*};
}

calls_that_ask! {
    fn check = dacm_check() -> Answer;
    fn operation_set = dacm_operation_set(subject: Subject, role: Role) -> Answer;
    fn permission_set = dacm_permission_set(subject: Subject, role: Role, item: Item) -> Answer;
    fn explain = dacm_explain(subject: Subject, role: Role, item: Item) -> Explanation;
    fn list_count = dacm_list_count(list: Item) -> Answer;
    fn list_start = dacm_list_start(list: Item) -> usize;
    fn find_editor = dacm_find_editor(list: Item) -> Answer;
    fn steps_up = dacm_steps_up(subject: Subject, root: Subject) -> Answer;
}

extern "C" {
    fn dacm_count_holders(
        image: *const u8,
        length: usize,
        item: Item,
        counts: *mut u32,
        entries: usize,
    ) -> Answer;
}

pub(crate) fn count_holders(
    image: &[u8],
    item: Item,
    counts: &mut [u32; Privileges::POSITIONS],
) -> Answer {
    let (entries, length) = (counts.len(), image.len());
    // SAFETY: for the image as for the calls that ask. Pointer and length of the counts are those
    // of one exclusive array, so they are aligned, share no byte with the image, and nobody else
    // reads or writes them. The function is proved to write only inside them.
    unsafe { dacm_count_holders(image.as_ptr(), length, item, counts.as_mut_ptr(), entries) }
}

calls_that_change! {
    fn define_subject = dacm_define_subject(
        caller: Subject, role: Role, parent: Subject, privileges: Privileges
    );
    fn set_grant = dacm_set_grant(
        caller: Subject, receiver: Subject, role: Role, domain: Subject, privileges: Privileges
    );
    fn remove_grant = dacm_remove_grant(caller: Subject, receiver: Subject, role: Role);
    fn set_line = dacm_set_line(
        caller: Subject, role: Role, list: Item, kind: Kind, subject: Subject,
        privileges: Privileges
    );
    fn remove_line = dacm_remove_line(
        caller: Subject, role: Role, list: Item, kind: Kind, subject: Subject
    );
    fn create_item = dacm_create_item(
        caller: Subject, role: Role, list: Item, flags: Flags, folder: Item
    );
    fn bind = dacm_bind(caller: Subject, item: Item, list: Item);
    fn hand_over = dacm_hand_over(caller: Subject, item: Item, owner: Subject);
}
