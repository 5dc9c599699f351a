//! Random arguments for a call: mostly numbers that mean something in the image, at times numbers at
//! the limits or beyond them.

use super::call::{Call, Counts};
use super::random::Random;
use super::sample::{EVERYONE, OWNER};
use super::tables::{Tables, FOLDER_APPLIES};

/// The roles that random grants use: few, so that calls often name a granted one.
pub const ROLES: [u32; 4] = [1, 2, 7, u32::MAX];

/// How many entries are lent for counts: as many as there must be, and numbers near and far.
pub const ENTRIES: [usize; 6] = [0, 1, 31, Counts::POSITIONS, 33, 64];

/// Chooses arguments for calls on an image with these tables.
pub struct Chooser<'a> {
    pub random: &'a mut Random,
    pub tables: &'a Tables,
}

impl Chooser<'_> {
    pub fn any_call(&mut self) -> Call {
        let index = self.random.below(Call::NAMES.len());
        self.call(index)
    }

    pub fn writing_call(&mut self) -> Call {
        let writing = Call::NAMES.len() - Call::FIRST_WRITING;
        let index = Call::FIRST_WRITING + self.random.below(writing);
        self.call(index)
    }

    /// The call with this one of the names.
    pub fn call(&mut self, index: usize) -> Call {
        match Call::NAMES[index] {
            "check" => Call::Check,
            "operation_set" => self.operation_set(),
            "permission_set" => self.permission_set(),
            "explain" => self.explain(),
            "count_holders" => self.count_holders(),
            "list_count" => Call::ListCount { list: self.list() },
            "lines_of" => Call::LinesOf { list: self.list() },
            "find_editor" => Call::FindEditor { list: self.list() },
            "steps_up" => self.steps_up(),
            "define_subject" => self.define_subject(),
            "set_grant" => self.set_grant(),
            "remove_grant" => self.remove_grant(),
            "set_line" => self.set_line(),
            "remove_line" => self.remove_line(),
            "create_item" => self.create_item(),
            "bind" => self.bind(),
            "hand_over" => self.hand_over(),
            name => panic!("no arguments are known for {name}"),
        }
    }

    fn operation_set(&mut self) -> Call {
        let (subject, role) = self.asker();
        Call::OperationSet { subject, role }
    }

    fn permission_set(&mut self) -> Call {
        let (subject, role) = self.asker();
        let item = self.item();
        Call::PermissionSet {
            subject,
            role,
            item,
        }
    }

    fn explain(&mut self) -> Call {
        let (subject, role) = self.asker();
        let item = self.item();
        Call::Explain {
            subject,
            role,
            item,
        }
    }

    /// Mostly with as many entries as there must be.
    fn count_holders(&mut self) -> Call {
        let entries = if self.random.one_in(4) {
            self.random.pick(&ENTRIES)
        } else {
            Counts::POSITIONS
        };
        Call::CountHolders {
            item: self.item(),
            entries,
        }
    }

    fn define_subject(&mut self) -> Call {
        let (caller, role) = self.asker();
        Call::DefineSubject {
            caller,
            role,
            parent: self.subject(),
            privileges: privileges(self.random),
        }
    }

    fn steps_up(&mut self) -> Call {
        Call::StepsUp {
            subject: self.subject(),
            root: self.subject(),
        }
    }

    fn set_grant(&mut self) -> Call {
        let (caller, receiver, role) = self.grant();
        // Half of the callers grant over themselves, which is always in their tree.
        let domain = if self.random.one_in(2) {
            caller
        } else {
            self.subject()
        };
        Call::SetGrant {
            caller,
            receiver,
            role,
            domain,
            privileges: privileges(self.random),
        }
    }

    fn remove_grant(&mut self) -> Call {
        let (caller, receiver, role) = self.grant();
        Call::RemoveGrant {
            caller,
            receiver,
            role,
        }
    }

    fn set_line(&mut self) -> Call {
        let (caller, role) = self.editor();
        let (list, kind, subject) = self.line();
        Call::SetLine {
            caller,
            role,
            list,
            kind,
            subject,
            privileges: privileges(self.random),
        }
    }

    fn remove_line(&mut self) -> Call {
        let (caller, role) = self.editor();
        let (list, kind, subject) = self.line();
        Call::RemoveLine {
            caller,
            role,
            list,
            kind,
            subject,
        }
    }

    fn create_item(&mut self) -> Call {
        let (caller, role) = self.asker();
        let folder = self.folder();
        Call::CreateItem {
            caller,
            role,
            list: self.list(),
            flags: self.flags(folder),
            folder,
        }
    }

    fn bind(&mut self) -> Call {
        let item = self.item();
        let owner = self.owner_of(item);
        Call::Bind {
            caller: self.one_of_or_subject(owner),
            item,
            list: self.list(),
        }
    }

    fn hand_over(&mut self) -> Call {
        Call::HandOver {
            caller: self.one_of_or_subject(Some(0)),
            item: self.item(),
            owner: self.subject(),
        }
    }

    fn subject(&mut self) -> u32 {
        self.number_below(self.tables.subjects.used())
    }

    /// Item numbers start at 1, so this is a number as for a subject, plus 1.
    fn item(&mut self) -> u32 {
        self.number_below(self.tables.items.used()).wrapping_add(1)
    }

    fn list(&mut self) -> u32 {
        let lists = self.tables.lists();
        match self.random.pick_any(&lists) {
            Some(list) if !self.random.one_in(4) => list,
            _ if self.random.one_in(2) => 0,
            _ => self.item(),
        }
    }

    /// Any item can be a folder. Half of the time it is none.
    fn folder(&mut self) -> u32 {
        if self.random.one_in(2) {
            0
        } else {
            self.item()
        }
    }

    fn role(&mut self) -> u32 {
        match self.random.below(8) {
            0 | 1 => 0,
            2 => self.random.number(),
            _ => self.random.pick(&ROLES),
        }
    }

    /// Where there is no folder, mostly without the flag that needs one.
    fn flags(&mut self, folder: u32) -> u32 {
        let bound = if folder == 0 && !self.random.one_in(8) {
            FOLDER_APPLIES
        } else {
            8
        };
        match self.random.below(8) {
            0 => self.random.pick(&[8, 9, 12, 1 << 31, u32::MAX]),
            _ => self.random.below(bound as usize) as u32,
        }
    }

    /// A subject and a role. Half of the time they are the receiver and the role of a grant.
    fn asker(&mut self) -> (u32, u32) {
        match self.random.pick_any(&self.tables.grants.rows) {
            Some([receiver, role, ..]) if self.random.one_in(2) => (receiver, role),
            _ => (self.subject(), self.role()),
        }
    }

    /// An asker that is often the custodian, because most others may edit nothing.
    fn editor(&mut self) -> (u32, u32) {
        if self.random.one_in(3) {
            (0, self.role())
        } else {
            self.asker()
        }
    }

    /// Caller, receiver and role. Half of the time they are those of an existing grant, with its
    /// grantor as the caller in half of these cases.
    fn grant(&mut self) -> (u32, u32, u32) {
        match self.random.pick_any(&self.tables.grants.rows) {
            Some([receiver, role, grantor, ..]) if self.random.one_in(2) => {
                (self.one_of_or_subject(Some(grantor)), receiver, role)
            }
            _ => (self.subject(), self.subject(), self.role()),
        }
    }

    /// List, kind and subject. Half of the time they are those of an existing line.
    fn line(&mut self) -> (u32, u32, u32) {
        match self.random.pick_any(&self.tables.lines.rows) {
            Some([list, kind, subject, _]) if self.random.one_in(2) => (list, kind, subject),
            _ => self.new_line(),
        }
    }

    fn new_line(&mut self) -> (u32, u32, u32) {
        let kind = match self.random.below(10) {
            0 => self.random.pick(&[4, 5, 1 << 31, u32::MAX]),
            _ => self.random.below(4) as u32,
        };
        let names_nobody = (kind == OWNER || kind == EVERYONE) && !self.random.one_in(4);
        let subject = if names_nobody { 0 } else { self.subject() };
        (self.list(), kind, subject)
    }

    fn owner_of(&self, item: u32) -> Option<u32> {
        let row = self.tables.items.rows.get(item.checked_sub(1)? as usize)?;
        let [owner, ..] = *row;
        Some(owner)
    }

    /// Half of the time this subject, if one is given; otherwise any subject.
    fn one_of_or_subject(&mut self, subject: Option<u32>) -> u32 {
        match subject {
            Some(subject) if self.random.one_in(2) => subject,
            _ => self.subject(),
        }
    }

    /// Mostly a number below the bound, at times one at the limits or far beyond.
    fn number_below(&mut self, bound: usize) -> u32 {
        if bound == 0 || self.random.one_in(12) {
            let used = bound as u32;
            let edges = [
                0,
                used.wrapping_sub(1),
                used,
                used + 1,
                1 << 31,
                u32::MAX - 1,
                u32::MAX,
            ];
            self.random.pick(&edges)
        } else {
            self.random.below(bound) as u32
        }
    }
}

/// Sets of privileges of every size. They have the seven named privileges more often than the host's
/// own.
pub fn privileges(random: &mut Random) -> u32 {
    match random.below(8) {
        0 => 0,
        1 => u32::MAX,
        2 => 127,
        3 => 1 << random.below(32),
        4 => random.number(),
        5 => random.number() | 127,
        _ => random.number() & 127,
    }
}
