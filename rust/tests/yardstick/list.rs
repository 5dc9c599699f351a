//! The lines of one list. They are looked up as late as possible: a permission needs few of them.

use super::rows::{
    line_key, run_key, Line, LineRow, ALL, CUSTODIAN, EVERYONE, GROUP, ITSELF, OWNER,
};
use super::tree::Tree;

/// The rules behind the lines' part, by their numbers.
#[derive(Clone, Copy)]
pub enum Rule {
    Custodian = 1,
    OwnerLine = 2,
    OwnLine = 3,
    GroupLine = 4,
    NothingFound = 5,
}

/// The rule that decides the lines' part, and the privileges that it gives.
#[derive(Clone, Copy)]
pub struct Decision {
    pub rule: Rule,
    /// The subject whose group line decides, and 0 where another rule does.
    pub group: u32,
    pub privileges: u32,
}

impl Decision {
    /// By a rule that names no group.
    #[inline]
    fn by(rule: Rule, privileges: u32) -> Decision {
        Decision {
            rule,
            group: 0,
            privileges,
        }
    }

    #[inline]
    fn by_group(line: Line) -> Decision {
        Decision {
            rule: Rule::GroupLine,
            group: line.subject,
            privileges: line.privileges,
        }
    }
}

#[derive(Clone, Copy)]
pub struct List<'a> {
    pub number: u32,
    /// Sorted lines. The last ones are the list's own lines and group lines; before them there may be
    /// lines of other lists.
    lines: &'a [LineRow],
    pub owner: Option<u32>,
    pub everyone: Option<u32>,
}

impl<'a> List<'a> {
    /// The list in a table of lines that ends with those of the list, if it has any. The kinds stand
    /// in order, so the lines for the owner and for everyone are the last.
    pub fn at_end(lines: &'a [LineRow], number: u32) -> List<'a> {
        let (everyone, lines) = split_off_last(lines, run_key(number, EVERYONE));
        let (owner, lines) = split_off_last(lines, run_key(number, OWNER));
        List {
            number,
            lines,
            owner,
            everyone,
        }
    }

    pub fn own(&self) -> &'a [LineRow] {
        self.run(ITSELF)
    }

    pub fn groups(&self) -> &'a [LineRow] {
        self.run(GROUP)
    }

    /// The lines of a kind, sorted by subject.
    fn run(&self, kind: u32) -> &'a [LineRow] {
        let key = run_key(self.number, kind);
        let start = self.lines.partition_point(|row| Line::of(row).run() < key);
        let rest = &self.lines[start..];
        let count = rest.partition_point(|row| Line::of(row).run() == key);
        &rest[..count]
    }

    /// The lines' part for a subject, on an item that has this list and this owner.
    pub fn part(&self, tree: Tree, subject: u32, owner: u32) -> u32 {
        let decision = self.decision(tree, subject, owner);
        decision.privileges | self.everyone_set(subject)
    }

    /// What the line for everyone adds to the lines' part. The custodian has all without it.
    pub fn everyone_set(&self, subject: u32) -> u32 {
        match subject {
            CUSTODIAN => 0,
            _ => self.everyone.unwrap_or(0),
        }
    }

    /// What decides the lines' part, before the line for everyone is added. Inlined, so that the rule and
    /// the group cost nothing where only the privileges are needed.
    #[inline]
    pub fn decision(&self, tree: Tree, subject: u32, owner: u32) -> Decision {
        if subject == CUSTODIAN {
            return Decision::by(Rule::Custodian, ALL);
        }
        if let Some(decision) = self.by_direct_line(subject, owner) {
            return decision;
        }
        let by_group = self.by_group_line(tree, subject);
        by_group.unwrap_or(Decision::by(Rule::NothingFound, 0))
    }

    /// By the line that counts before those of the groups: for the owner the owner line; for others, and
    /// for an owner without an owner line, the own line.
    #[inline]
    pub fn by_direct_line(&self, subject: u32, owner: u32) -> Option<Decision> {
        if subject == owner {
            if let Some(privileges) = self.owner {
                return Some(Decision::by(Rule::OwnerLine, privileges));
            }
        }
        let key = line_key(self.number, ITSELF, subject);
        let found = self
            .lines
            .binary_search_by_key(&key, |row| Line::of(row).key());
        let line = Line::of(&self.lines[found.ok()?]);
        Some(Decision::by(Rule::OwnLine, line.privileges))
    }

    /// By the group line of the nearest subject above that has one. Going up, numbers fall: so one climb
    /// passes the group lines once, from that of the parent down to the first.
    #[inline]
    fn by_group_line(&self, tree: Tree, subject: u32) -> Option<Decision> {
        let mut reached = tree.parent(subject);
        let parents = line_key(self.number, GROUP, reached);
        let end = self
            .lines
            .partition_point(|row| Line::of(row).key() <= parents);
        let run = run_key(self.number, GROUP);
        for line in self.lines[..end].iter().rev().map(Line::of) {
            if line.run() != run {
                return None;
            }
            reached = tree.climb(reached, line.subject);
            if reached == line.subject {
                return Some(Decision::by_group(line));
            }
        }
        None
    }
}

/// The privileges of the last line if it is of this list and kind, and the lines before it.
fn split_off_last(lines: &[LineRow], run: u64) -> (Option<u32>, &[LineRow]) {
    if let Some((last, before)) = lines.split_last() {
        let last = Line::of(last);
        if last.run() == run {
            return (Some(last.privileges), before);
        }
    }
    (None, lines)
}
