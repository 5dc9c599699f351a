//! What explain answers, as plain numbers, and what must hold of it whatever an implementation says.

use super::call::Call;
use super::sample::{EVERYONE, GROUP, ITSELF, OWNER};
use super::tables::Tables;
use crate::twin;
use dacm::{Item, Refusal, Role, Rule, Subject};

/// The numbers of the rules.
pub const CUSTODIAN: u32 = 1;
pub const OWNER_LINE: u32 = 2;
pub const OWN_LINE: u32 = 3;
pub const GROUP_LINE: u32 = 4;
pub const NOTHING_FOUND: u32 = 5;

/// As the header has it.
#[repr(C)]
#[derive(Clone, Copy, Debug, Default, PartialEq, Eq)]
pub struct Explanation {
    pub number: u32,
    pub rule: u32,
    pub group: u32,
    pub rule_set: u32,
    pub everyone_set: u32,
    pub role_set: u32,
    pub operations: u32,
    pub steps: u32,
    pub folder: u32,
}

/// The number that is answered for steps where there are none.
pub const OUTSIDE: u32 = 4_294_967_295;

/// The number for steps as the crate answers them.
pub fn steps_number(steps: Option<u32>) -> u32 {
    assert_ne!(steps, Some(OUTSIDE), "outside is no count of steps");
    steps.unwrap_or(OUTSIDE)
}

impl Explanation {
    pub fn refused(number: u32) -> Explanation {
        Explanation {
            number,
            ..Explanation::default()
        }
    }

    /// Put together by the paper's rules, the sets are the item's own set.
    pub fn own_set(&self) -> u32 {
        self.operations & (self.rule_set | self.everyone_set | self.role_set)
    }
}

/// What the crate answers.
impl From<Result<dacm::Explanation, Refusal>> for Explanation {
    fn from(answer: Result<dacm::Explanation, Refusal>) -> Explanation {
        match answer {
            Ok(explanation) => Explanation {
                number: 0,
                rule: explanation.rule.number(),
                group: group(explanation.rule),
                rule_set: explanation.rule_set.0,
                everyone_set: explanation.everyone_set.0,
                role_set: explanation.role_set.0,
                operations: explanation.operations.0,
                steps: steps_number(explanation.steps),
                folder: folder_number(explanation.folder),
            },
            Err(refusal) => Explanation::refused(refusal.number()),
        }
    }
}

/// The number for a folder that applies as the crate answers it.
fn folder_number(folder: Option<Item>) -> u32 {
    assert_ne!(folder, Some(Item::NONE), "folder 0 applies to nothing");
    folder.map_or(0, |folder| folder.0)
}

fn group(rule: Rule) -> u32 {
    match rule {
        Rule::GroupLine(Subject(number)) => number,
        _ => 0,
    }
}

/// The arguments of the call.
#[derive(Clone, Copy, Debug)]
pub struct Question {
    pub subject: u32,
    pub role: u32,
    pub item: u32,
}

#[rustfmt::skip] // the arguments in one line
impl Question {
    pub fn new(subject: u32, role: u32, item: u32) -> Question {
        Question { subject, role, item }
    }

    pub fn of(call: &Call) -> Option<Question> {
        match *call {
            Call::Explain { subject, role, item } => Some(Question::new(subject, role, item)),
            _ => None,
        }
    }

    pub fn call(self) -> Call {
        let Question { subject, role, item } = self;
        Call::Explain { subject, role, item }
    }

    /// The call for the permission set, with the same arguments.
    pub fn set(self) -> Call {
        let Question { subject, role, item } = self;
        Call::PermissionSet { subject, role, item }
    }
}

impl Question {
    /// The function of the header answers the same as the crate, and unless the question is refused,
    /// the explanation holds of the image.
    pub fn assert_explained(self, image: &[u8], explanation: &Explanation, seed: &str) {
        let case = format!("{seed}: {self:?} is answered {explanation:?}");
        assert_eq!(self.ask_in_c(image), *explanation, "{case}, otherwise in C");
        if explanation.number == 0 {
            self.assert_put_together(image, explanation, &case);
            let tables = &Tables::read(image);
            self.assert_lines_are_there(tables, explanation, &case);
            self.assert_first_decided(tables, explanation.rule, &case);
            self.assert_steps_lead_there(tables, explanation.steps, &case);
            let applied = tables.folder_of(self.item).unwrap_or(0);
            assert_eq!(explanation.folder, applied, "{case}");
        }
    }

    /// Every field, also those of a refused call, which the crate does not show.
    fn ask_in_c(self, image: &[u8]) -> Explanation {
        extern "C" {
            fn dacm_explain(
                image: *const u8,
                length: usize,
                subject: Subject,
                role: Role,
                item: Item,
            ) -> Explanation;
        }
        let (subject, role, item) = (Subject(self.subject), Role(self.role), Item(self.item));
        // SAFETY: pointer and length are those of one slice.
        unsafe { dacm_explain(image.as_ptr(), image.len(), subject, role, item) }
    }

    /// The own set of this explanation and those of the folders that apply, each explained in its turn,
    /// share the permission set. The crate puts an own set together in the same way.
    fn assert_put_together(self, image: &[u8], explanation: &Explanation, case: &str) {
        let mut shared = explanation.own_set();
        let mut folder = explanation.folder;
        while folder != 0 {
            let next = Question::new(self.subject, self.role, folder).ask_in_c(image);
            assert_eq!(next.number, 0, "{case}: folder {folder} is not explained");
            assert!(next.folder < folder, "{case}: then {next:?}");
            shared &= next.own_set();
            folder = next.folder;
        }
        let set = twin::permission_set(image, self.subject, self.role, self.item).result;
        assert_eq!(shared, set, "{case}");
        let (subject, role, item) = (Subject(self.subject), Role(self.role), Item(self.item));
        let in_crate = dacm::explain(image, subject, role, item);
        let own_set = in_crate.map(|explanation| explanation.own_set().0);
        assert_eq!(own_set, Ok(explanation.own_set()), "{case}");
    }

    /// The line that is said to have decided is among the rows, with that set. Where no line
    /// decided, the rule has its set by itself.
    fn assert_lines_are_there(self, tables: &Tables, explanation: &Explanation, case: &str) {
        let Explanation {
            rule,
            group,
            rule_set,
            everyone_set,
            ..
        } = *explanation;
        match rule {
            CUSTODIAN => assert_eq!(
                [self.subject, rule_set, everyone_set],
                [0, u32::MAX, 0],
                "{case}"
            ),
            OWNER_LINE => self.assert_line(tables, OWNER, 0, rule_set, case),
            OWN_LINE => self.assert_line(tables, ITSELF, self.subject, rule_set, case),
            GROUP_LINE => self.assert_line(tables, GROUP, group, rule_set, case),
            NOTHING_FOUND => assert_eq!(rule_set, 0, "{case}"),
            _ => panic!("{case}: there is no rule {rule}"),
        }
        assert!(rule == GROUP_LINE || group == 0, "{case}: group {group}");
        if everyone_set != 0 {
            self.assert_line(tables, EVERYONE, 0, everyone_set, case);
        }
    }

    /// The owner line decided for an owner only, and the lines that count before the one that decided
    /// are not among the rows.
    fn assert_first_decided(self, tables: &Tables, rule: u32, case: &str) {
        let owns = tables.owner_of(self.item) == self.subject;
        let list = tables.list_of(self.item);
        assert!(owns || rule != OWNER_LINE, "{case}");
        if owns && rule > OWNER_LINE {
            assert_eq!(tables.line(list, OWNER, 0), None, "{case}");
        }
        if rule > OWN_LINE {
            assert_eq!(tables.line(list, ITSELF, self.subject), None, "{case}");
        }
    }

    /// The steps are those from the item's owner to the domain of the grant, if it is among the rows.
    fn assert_steps_lead_there(self, tables: &Tables, steps: u32, case: &str) {
        let owner = tables.owner_of(self.item);
        let domain = tables.domain_of(self.subject, self.role);
        let lead_there = domain.and_then(|domain| tables.steps_up(owner, domain));
        assert_eq!(steps, lead_there.unwrap_or(OUTSIDE), "{case}");
    }

    fn assert_line(self, tables: &Tables, kind: u32, subject: u32, privileges: u32, case: &str) {
        let row = [tables.list_of(self.item), kind, subject, privileges];
        let is_there = tables.lines.rows.contains(&row);
        assert!(is_there, "{case}: there is no line {row:?}");
    }
}
