//! Questions 1 to 7, which every call asks. Each relies on those before it: the
//! rules of the lines use the items' flags, the rules of the grants use the tree.

use super::image::{Image, HEADER};
use super::rows::{
    flags_in_range, line_in_range, Grant, Item, Line, Subject, ALL, NO_LIST, NO_ROLE,
};
use super::{ask, Refused};

const LONGEST: usize = 65_536;

impl<'a> Image<'a> {
    /// The view of an accepted image.
    pub fn open(bytes: &'a [u8]) -> Result<Image<'a>, Refused> {
        ask(1, (HEADER..=LONGEST).contains(&bytes.len()))?;
        let image = Image::parse(bytes).ok_or(Refused(2))?;
        ask(3, subjects_hold(&image))?;
        ask(4, items_hold(&image))?;
        ask(5, lines_hold(&image))?;
        ask(6, grants_hold(&image))?;
        ask(7, unused_are_zero(&image))?;
        Ok(image)
    }
}

/// Row 0 is the custodian's. Any other row names a parent and a creator with lower
/// numbers, and has no privilege that the creator's row lacks. What the creator
/// has by a role does not count.
fn subjects_hold(image: &Image) -> bool {
    let custodian = Subject {
        parent: 0,
        privileges: ALL,
        creator: 0,
    };
    image.subject(0) == custodian
        && (1..image.subject_count()).all(|number| {
            let subject = image.subject(number);
            subject.parent < number
                && subject.creator < number
                && subject.privileges & !image.subject(subject.creator).privileges == 0
        })
}

/// Folder 0 is none, and lower than every number.
fn items_hold(image: &Image) -> bool {
    let items = image.items.used.iter().map(Item::read);
    (1..).zip(items).all(|(number, item)| {
        image.has_subject(item.owner)
            && (item.list == NO_LIST || image.list(item.list).is_some())
            && item.folder < number
            && flags_in_range(item.flags, item.folder)
    })
}

fn lines_hold(image: &Image) -> bool {
    let lines = image.lines.used;
    lines.iter().map(Line::read).all(|line| {
        image.list(line.list).is_some()
            && line_in_range(line.kind, line.subject)
            && image.has_subject(line.subject)
    }) && lines.is_sorted_by(|a, b| Line::read(a).key() < Line::read(b).key())
}

fn grants_hold(image: &Image) -> bool {
    let grants = image.grants.used;
    grants.iter().map(Grant::read).all(|grant| {
        image.has_subject(grant.receiver)
            && grant.role != NO_ROLE
            && image.has_subject(grant.grantor)
            && image.has_subject(grant.domain)
            && image.in_tree(grant.domain, grant.grantor)
    }) && grants.is_sorted_by(|a, b| Grant::read(a).key() < Grant::read(b).key())
}

fn unused_are_zero(image: &Image) -> bool {
    image.subjects.unused_are_zero()
        && image.grants.unused_are_zero()
        && image.lines.unused_are_zero()
        && image.items.unused_are_zero()
}
