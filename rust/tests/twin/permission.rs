//! How a permission is found, on an accepted image.

use super::image::Image;
use super::rows::{Grant, Item, ALL, CUSTODIAN, EVERYONE, GROUP, ITSELF, NO_FOLDER, OWNER};
use super::Explanation;

/// The privileges that calls need: bits 4, 5 and 6 of a set.
pub const CREATE_ITEMS: u32 = 1 << 4;
pub const DEFINE_SUBJECTS: u32 = 1 << 5;
pub const EDIT_LIST: u32 = 1 << 6;

/// The rule that decides what the lines give: its number, the subject whose group
/// line it is or else 0, and its set.
struct Rule {
    number: u32,
    group: u32,
    set: u32,
}

impl Rule {
    const CUSTODIAN: Rule = Rule::of_no_group(1, ALL);
    const NOTHING_FOUND: Rule = Rule::of_no_group(5, 0);

    fn owner_line(set: u32) -> Rule {
        Rule::of_no_group(2, set)
    }

    fn own_line(set: u32) -> Rule {
        Rule::of_no_group(3, set)
    }

    fn group_line(group: u32, set: u32) -> Rule {
        let number = 4;
        Rule { number, group, set }
    }

    const fn of_no_group(number: u32, set: u32) -> Rule {
        let group = 0;
        Rule { number, group, set }
    }
}

/// The first line found decides, even one without privileges: `None` and `Some(0)`
/// differ. For the item's owner the owner line is looked for first. Then, for an
/// owner and for anybody else, the line for the subject itself. Then the groups above
/// the subject are searched.
fn deciding_rule(image: &Image, subject: u32, item: Item) -> Rule {
    if subject == CUSTODIAN {
        return Rule::CUSTODIAN;
    }
    if subject == item.owner {
        if let Some(privileges) = image.line(item.list, OWNER, 0) {
            return Rule::owner_line(privileges);
        }
    }
    if let Some(privileges) = image.line(item.list, ITSELF, subject) {
        return Rule::own_line(privileges);
    }
    group_line(image, item.list, subject).unwrap_or(Rule::NOTHING_FOUND)
}

/// The group line of the nearest subject above that has one. The custodian's
/// group line is the last one that is looked for.
fn group_line(image: &Image, list: u32, subject: u32) -> Option<Rule> {
    let mut below = subject;
    while below != CUSTODIAN {
        let parent = image.subject(below).parent;
        if let Some(privileges) = image.line(list, GROUP, parent) {
            return Some(Rule::group_line(parent, privileges));
        }
        below = parent;
    }
    None
}

/// What the line for everyone adds. To what the custodian has it adds nothing.
fn everyone_set(image: &Image, subject: u32, item: Item) -> u32 {
    if subject == CUSTODIAN {
        return 0;
    }
    image.line(item.list, EVERYONE, 0).unwrap_or(0)
}

/// The lines' part: whichever rule decides, the line for everyone is added.
fn lines_part(image: &Image, subject: u32, item: Item) -> u32 {
    deciding_rule(image, subject, item).set | everyone_set(image, subject, item)
}

/// The role's part, if the item's owner is in the domain's tree: those privileges of
/// the grant that are also in the grantor's lines' part. The grantor's own row does
/// not matter here.
fn role_part(image: &Image, grant: Option<Grant>, item: Item) -> u32 {
    match grant {
        Some(grant) if image.in_tree(item.owner, grant.domain) => {
            grant.privileges & lines_part(image, grant.grantor, item)
        }
        _ => 0,
    }
}

/// The subject's own privileges, and those of the grant that the grantor's own row
/// has too. The domain does not matter here.
pub fn operation_set(image: &Image, subject: u32, grant: Option<Grant>) -> u32 {
    let own = image.subject(subject).privileges;
    match grant {
        Some(grant) => own | grant.privileges & image.subject(grant.grantor).privileges,
        None => own,
    }
}

fn object_set(image: &Image, subject: u32, grant: Option<Grant>, item: Item) -> u32 {
    lines_part(image, subject, item) | role_part(image, grant, item)
}

/// What is in the operation set and in the object set.
fn own_set(image: &Image, subject: u32, role: u32, item: Item) -> u32 {
    let grant = image.grant(subject, role);
    operation_set(image, subject, grant) & object_set(image, subject, grant, item)
}

/// The item's own set. If its folder applies, what that shares with the folder's
/// permission set, which is found in the same way. Each folder has a lower number than
/// the item in it, so this ends.
pub fn permission_set(image: &Image, subject: u32, role: u32, item: Item) -> u32 {
    let own = own_set(image, subject, role, item);
    match image.folder_of(item) {
        Some(folder) => own & permission_set(image, subject, role, folder),
        None => own,
    }
}

/// The number that is answered for steps: if there are none, the highest.
pub fn steps_number(steps: Option<u32>) -> u32 {
    steps.unwrap_or(4_294_967_295)
}

/// What the item's own set is made of, each as it is before it is put together. Also
/// how far the item's owner is below the domain of the grant, if there is one, and the
/// folder that applies, or 0.
pub fn explain(image: &Image, subject: u32, role: u32, item: Item) -> Explanation {
    let grant = image.grant(subject, role);
    let rule = deciding_rule(image, subject, item);
    let steps = grant.and_then(|grant| image.steps_up(item.owner, grant.domain));
    Explanation {
        number: 0,
        rule: rule.number,
        group: rule.group,
        rule_set: rule.set,
        everyone_set: everyone_set(image, subject, item),
        role_set: role_part(image, grant, item),
        operations: operation_set(image, subject, grant),
        steps: steps_number(steps),
        folder: item.applied_folder().unwrap_or(NO_FOLDER),
    }
}
