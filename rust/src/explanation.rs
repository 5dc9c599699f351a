//! Why an item's own set is what it is.

use crate::{Item, Privileges, Subject};
use core::fmt;

/// The rule behind the lines' part of an item's own set. The first of these that applies decides.
///
/// One of the five always applies, so a `match` may list them all.
#[derive(Clone, Copy, Debug, PartialEq, Eq, PartialOrd, Ord, Hash)]
pub enum Rule {
    /// The subject is the custodian, who has every privilege. No line is looked at.
    Custodian,
    /// The subject owns the item, and the list has a line for the owner.
    OwnerLine,
    /// The list has a line for the subject itself. This decides for an owner too where the list has
    /// no line for the owner.
    OwnLine,
    /// The list has a line for the group of this subject, the nearest above the one that asks. It
    /// may be the custodian.
    GroupLine(Subject),
    /// No such line was found. An item without a list has none.
    NothingFound,
}

impl Rule {
    /// The number of the rule, as `dacm.h` has it.
    pub const fn number(self) -> u32 {
        match self {
            Rule::Custodian => 1,
            Rule::OwnerLine => 2,
            Rule::OwnLine => 3,
            Rule::GroupLine(_) => 4,
            Rule::NothingFound => 5,
        }
    }

    /// The rule with this number. The group belongs to rule 4 alone.
    ///
    /// # Panics
    ///
    /// If there is no such rule. It is proved of the archive that it answers none.
    pub(crate) fn from_number(number: u32, group: Subject) -> Rule {
        match number {
            1 => Rule::Custodian,
            2 => Rule::OwnerLine,
            3 => Rule::OwnLine,
            4 => Rule::GroupLine(group),
            5 => Rule::NothingFound,
            other => panic!("libdacm.a answers rule {other}: it is not of this crate's version"),
        }
    }
}

/// ```
/// use dacm::{Rule, Subject};
///
/// assert_eq!(Rule::OwnLine.to_string(), "own line");
/// assert_eq!(Rule::GroupLine(Subject(1)).to_string(), "group line of subject 1");
/// ```
impl fmt::Display for Rule {
    fn fmt(&self, out: &mut fmt::Formatter<'_>) -> fmt::Result {
        match *self {
            Rule::Custodian => out.write_str("custodian"),
            Rule::OwnerLine => out.write_str("owner line"),
            Rule::OwnLine => out.write_str("own line"),
            Rule::GroupLine(Subject(number)) => write!(out, "group line of subject {number}"),
            Rule::NothingFound => out.write_str("nothing found"),
        }
    }
}

/// Which rule decided an item's own set, what makes it up, and which folder applies too.
/// [`explain`](crate::explain) answers it.
///
/// A newer version may have more fields.
#[non_exhaustive]
#[derive(Clone, Copy, Debug, PartialEq, Eq, Hash)]
pub struct Explanation {
    /// The rule that decided.
    pub rule: Rule,
    /// What that rule gives: every privilege to the custodian, the privileges of the line that
    /// decided, or none where nothing was found. A line may give none too.
    pub rule_set: Privileges,
    /// What the list's line for everyone adds. It adds nothing to what the custodian has.
    pub everyone_set: Privileges,
    /// What the role adds on this item, whether or not the operation set has it.
    pub role_set: Privileges,
    /// The operation set: what the subject under the role may do at all, whatever the item.
    pub operations: Privileges,
    /// How many steps the item's owner is below the domain of the grant, as
    /// [`steps_up`](crate::steps_up) counts them. `None` where the role is not granted, and where the
    /// owner is outside of the domain's tree. The role then adds nothing.
    pub steps: Option<u32>,
    /// The folder that applies to the item. `None` where the item has none, and where it has one
    /// without the flag [`FOLDER_APPLIES`](crate::Flags::FOLDER_APPLIES).
    pub folder: Option<Item>,
}

impl Explanation {
    /// The own set that this explains: what lines or role give, as far as it is in the operation set.
    ///
    /// Where no [`folder`](Explanation::folder) applies, it is the permission set. Where one does, the
    /// permission set is what the own set shares with the permission set on the folder.
    pub fn own_set(&self) -> Privileges {
        self.operations & (self.rule_set | self.everyone_set | self.role_set)
    }

    /// What decided and what that gives, the start of the sentence.
    fn write_rule(&self, out: &mut fmt::Formatter<'_>) -> fmt::Result {
        let given = InWords(self.rule_set);
        match self.rule {
            Rule::Custodian => out.write_str("The custodian has every privilege and needs no line"),
            Rule::OwnerLine => write!(out, "The owner line decided and gives {given}"),
            Rule::OwnLine => write!(out, "The subject's own line decided and gives {given}"),
            Rule::GroupLine(Subject(number)) => {
                write!(
                    out,
                    "The group line of subject {number} decided and gives {given}"
                )
            }
            Rule::NothingFound => out.write_str("No line was found to decide, so nothing is given"),
        }
    }
}

/// A sentence to be read to somebody on the phone.
///
/// "The subject's own line decided and gives annotate; everyone's line adds read; the role adds read,
/// replace; of these the operation set lets through read, replace, annotate."
///
/// Where a folder applies, it ends "lets through read, replace, annotate; folder 3 applies too."
impl fmt::Display for Explanation {
    fn fmt(&self, out: &mut fmt::Formatter<'_>) -> fmt::Result {
        self.write_rule(out)?;
        write!(out, "; everyone's line adds {}", InWords(self.everyone_set))?;
        write!(out, "; the role adds {}", InWords(self.role_set))?;
        let let_through = InWords(self.own_set());
        write!(
            out,
            "; of these the operation set lets through {let_through}"
        )?;
        if let Some(Item(number)) = self.folder {
            write!(out, "; folder {number} applies too")?;
        }
        out.write_str(".")
    }
}

/// A set as it is said in a sentence.
struct InWords(Privileges);

impl fmt::Display for InWords {
    fn fmt(&self, out: &mut fmt::Formatter<'_>) -> fmt::Result {
        match self.0 {
            Privileges::NONE => out.write_str("nothing"),
            Privileges::ALL => out.write_str("every privilege"),
            set => write!(out, "{set}"),
        }
    }
}

#[cfg(test)]
mod tests {
    use super::{Explanation, Rule};
    use crate::{Item, Privileges, Subject};
    use std::string::ToString;

    const READ: Privileges = Privileges::READ;
    const REPLACE: Privileges = Privileges::REPLACE;
    const ANNOTATE: Privileges = Privileges::ANNOTATE;
    const NONE: Privileges = Privileges::NONE;
    const ALL: Privileges = Privileges::ALL;

    const RULES: [Rule; 5] = [
        Rule::Custodian,
        Rule::OwnerLine,
        Rule::OwnLine,
        Rule::GroupLine(Subject(7)),
        Rule::NothingFound,
    ];

    /// The sets in the order of the fields: of the rule, of everyone, of the role, of operations.
    fn explanation(rule: Rule, sets: [Privileges; 4]) -> Explanation {
        let [rule_set, everyone_set, role_set, operations] = sets;
        Explanation {
            rule,
            rule_set,
            everyone_set,
            role_set,
            operations,
            steps: None,
            folder: None,
        }
    }

    fn assert_says(rule: Rule, sets: [Privileges; 4], sentence: &str) {
        assert_eq!(explanation(rule, sets).to_string(), sentence);
    }

    #[test]
    fn a_number_and_its_rule_belong_together() {
        for (number, rule) in (1..).zip(RULES) {
            assert_eq!(rule.number(), number);
            assert_eq!(Rule::from_number(number, Subject(7)), rule);
        }
    }

    /// Where another rule decided, the group does not count, whatever it is.
    #[test]
    fn only_a_group_line_has_a_group() {
        for rule in RULES.into_iter().filter(|rule| rule.number() != 4) {
            for group in [0, 7, u32::MAX] {
                assert_eq!(Rule::from_number(rule.number(), Subject(group)), rule);
            }
        }
        let custodians = Rule::GroupLine(Subject::CUSTODIAN);
        assert_eq!(Rule::from_number(4, Subject::CUSTODIAN), custodians);
    }

    #[test]
    #[should_panic(expected = "libdacm.a answers rule 0")]
    fn no_rule_has_number_0() {
        Rule::from_number(0, Subject(0));
    }

    #[test]
    #[should_panic(expected = "libdacm.a answers rule 6")]
    fn no_rule_has_number_6() {
        Rule::from_number(6, Subject(0));
    }

    #[test]
    fn display_of_rules() {
        let names = [
            "custodian",
            "owner line",
            "own line",
            "group line of subject 7",
            "nothing found",
        ];
        for (rule, name) in RULES.into_iter().zip(names) {
            assert_eq!(rule.to_string(), name);
        }
    }

    #[test]
    fn an_own_set_is_put_together() {
        let sets = [ANNOTATE, READ, REPLACE, Privileges(0b0111)];
        let explained = explanation(Rule::OwnLine, sets);
        assert_eq!(explained.own_set(), READ | REPLACE);
        for only in 0..3 {
            let mut sets = [NONE, NONE, NONE, ALL];
            sets[only] = READ;
            let explained = explanation(Rule::OwnLine, sets);
            assert_eq!(explained.own_set(), READ);
        }
        let explained = explanation(Rule::OwnLine, [ALL, ALL, ALL, NONE]);
        assert_eq!(explained.own_set(), NONE);
    }

    /// The own set is the item's, whatever applies beside it.
    #[test]
    fn a_folder_changes_nothing_but_the_end_of_the_sentence() {
        let plain = explanation(Rule::OwnLine, [ANNOTATE, READ, NONE, ALL]);
        let folder = Some(Item(3));
        let in_folder = Explanation { folder, ..plain };
        assert_eq!(in_folder.own_set(), plain.own_set());
        let sentence = "The subject's own line decided and gives annotate; everyone's line adds read; \
                        the role adds nothing; of these the operation set lets through read, annotate";
        assert_eq!(plain.to_string(), sentence.to_string() + ".");
        let end = "; folder 3 applies too.";
        assert_eq!(in_folder.to_string(), sentence.to_string() + end);
    }

    #[test]
    fn the_sentence_of_each_rule() {
        assert_says(
            Rule::Custodian,
            [ALL, NONE, NONE, ALL],
            "The custodian has every privilege and needs no line; everyone's line adds nothing; \
             the role adds nothing; of these the operation set lets through every privilege.",
        );
        assert_says(
            Rule::OwnerLine,
            [
                READ | REPLACE | Privileges::DISCARD,
                READ,
                NONE,
                READ | REPLACE,
            ],
            "The owner line decided and gives read, replace, discard; everyone's line adds read; \
             the role adds nothing; of these the operation set lets through read, replace.",
        );
        assert_says(
            Rule::OwnLine,
            [ANNOTATE, READ, READ | REPLACE, READ | REPLACE | ANNOTATE],
            "The subject's own line decided and gives annotate; everyone's line adds read; the \
             role adds read, replace; of these the operation set lets through read, replace, \
             annotate.",
        );
        assert_says(
            Rule::GroupLine(Subject(1)),
            [READ | REPLACE, READ, NONE, ANNOTATE],
            "The group line of subject 1 decided and gives read, replace; everyone's line adds \
             read; the role adds nothing; of these the operation set lets through nothing.",
        );
        assert_says(
            Rule::NothingFound,
            [NONE, READ, REPLACE, READ],
            "No line was found to decide, so nothing is given; everyone's line adds read; the role \
             adds replace; of these the operation set lets through read.",
        );
    }

    /// A line that gives nothing has decided all the same.
    #[test]
    fn the_sentences_of_empty_sets() {
        let nothing = [NONE, NONE, NONE, ALL];
        let rest = "; everyone's line adds nothing; the role adds nothing; of these the operation \
                    set lets through nothing.";
        let starts = [
            (Rule::OwnerLine, "The owner line decided and gives nothing"),
            (
                Rule::OwnLine,
                "The subject's own line decided and gives nothing",
            ),
            (
                Rule::GroupLine(Subject::CUSTODIAN),
                "The group line of subject 0 decided and gives nothing",
            ),
            (
                Rule::NothingFound,
                "No line was found to decide, so nothing is given",
            ),
        ];
        for (rule, start) in starts {
            assert_says(rule, nothing, &(start.to_string() + rest));
        }
    }

    #[test]
    fn the_sentences_of_full_sets() {
        assert_says(
            Rule::OwnLine,
            [ALL; 4],
            "The subject's own line decided and gives every privilege; everyone's line adds every \
             privilege; the role adds every privilege; of these the operation set lets through \
             every privilege.",
        );
        assert_says(
            Rule::Custodian,
            [ALL, NONE, ALL, ALL],
            "The custodian has every privilege and needs no line; everyone's line adds nothing; \
             the role adds every privilege; of these the operation set lets through every \
             privilege.",
        );
    }
}
