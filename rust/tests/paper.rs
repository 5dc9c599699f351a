//! The sample workshop: every case that the paper gives, on the library, on the twin and on the
//! yardstick.

mod support;
mod twin;
mod yardstick;

use support::answers::{accepted, answer, permission_set, refused, report};
use support::boundary::custodian_only;
use support::call::{library, Call, Counts, Outcome};
use support::compare::compare;
use support::explanation::{
    Explanation, Question, CUSTODIAN, GROUP_LINE, NOTHING_FOUND, OUTSIDE, OWNER_LINE, OWN_LINE,
};
use support::sample::{sample, EVERYONE, GROUP, ITSELF, OWNER};
use support::tables::{get_field, set_field, Table, Tables};

/// Privileges to try where the paper names none.
const SOME_PRIVILEGES: [u32; 5] = [0, 1, 127, 255, u32::MAX];

/// Makes the call on a fresh sample.
fn on_sample(call: Call) -> (u32, u32) {
    answer(&mut sample().image(), call)
}

#[test]
fn the_image_is_laid_out_as_the_paper_says() {
    let mut image = sample().image();
    let header: Vec<u32> = (0..9).map(|field| get_field(&image, field)).collect();
    assert_eq!(header, [6, 36, 1, 120, 5, 160, 4, 256, 336]);
    assert_eq!(image.len(), 336);
    assert_eq!(answer(&mut image, Call::Check), accepted(0));
}

#[test]
fn the_twelve_sets() {
    let sets = [
        (2, 0, 2, 3),
        (2, 0, 3, 3),
        (5, 0, 2, 1),
        (4, 0, 2, 9),
        (4, 7, 2, 11),
        (4, 0, 3, 1),
        (4, 7, 3, 3),
        (4, 9, 2, 9),
        (1, 0, 2, 1),
        (3, 0, 2, 1),
        (2, 0, 4, 0),
        (0, 0, 4, u32::MAX),
    ];
    for (subject, role, item, set) in sets {
        let answered = permission_set(&mut sample().image(), subject, role, item);
        assert_eq!(answered, accepted(set), "({subject}, {role}, {item})");
    }
}

/// Asker, role, item; then rule, group, set of the rule, of everyone, of the role, of operations, and
/// the steps from the item's owner up to the grant's domain. No item of the sample is in a folder.
type Explained = ([u32; 3], [u32; 7]);

#[test]
fn the_twelve_explanations() {
    let explained: [Explained; 12] = [
        ([2, 0, 2], [OWNER_LINE, 0, 7, 1, 0, 91, OUTSIDE]),
        ([2, 0, 3], [GROUP_LINE, 1, 3, 1, 0, 91, OUTSIDE]),
        ([5, 0, 2], [OWN_LINE, 0, 0, 1, 0, 3, OUTSIDE]),
        ([4, 0, 2], [OWN_LINE, 0, 8, 1, 0, 9, OUTSIDE]),
        ([4, 7, 2], [OWN_LINE, 0, 8, 1, 3, 11, 0]),
        ([4, 0, 3], [OWNER_LINE, 0, 7, 1, 0, 9, OUTSIDE]),
        ([4, 7, 3], [OWNER_LINE, 0, 7, 1, 0, 11, OUTSIDE]),
        ([4, 9, 2], [OWN_LINE, 0, 8, 1, 0, 9, OUTSIDE]),
        ([1, 0, 2], [NOTHING_FOUND, 0, 0, 1, 0, 127, OUTSIDE]),
        ([3, 0, 2], [NOTHING_FOUND, 0, 0, 1, 0, 73, OUTSIDE]),
        ([2, 0, 4], [NOTHING_FOUND, 0, 0, 0, 0, 91, OUTSIDE]),
        ([0, 0, 4], [CUSTODIAN, 0, u32::MAX, 0, 0, u32::MAX, OUTSIDE]),
    ];
    for explained in explained {
        assert_explains(&sample(), explained);
    }
}

/// The custodian needs no line, so everyone's line is not for him.
#[test]
fn the_custodian_on_a_list_with_a_line_for_everyone() {
    let custodians = [CUSTODIAN, 0, u32::MAX, 0, 0, u32::MAX, OUTSIDE];
    assert_explains(&sample(), ([0, 0, 2], custodians));
}

#[test]
fn an_owner_line_of_0_decides() {
    let mut tables = sample();
    tables.lines.rows[3] = [1, OWNER, 0, 0];
    assert_explains(&tables, ([4, 0, 3], [OWNER_LINE, 0, 0, 1, 0, 9, OUTSIDE]));
}

/// The sample without its owner line, the last but one.
fn without_owner_line() -> Tables {
    let mut tables = sample();
    tables.lines.rows.remove(3);
    tables
}

/// Subject 4 is named on the list. Subject 2 is not, and has what the group gives.
#[test]
fn an_owner_without_an_owner_line() {
    let tables = without_owner_line();
    assert_explains(&tables, ([4, 0, 3], [OWN_LINE, 0, 8, 1, 0, 9, OUTSIDE]));
    assert_explains(&tables, ([2, 0, 2], [GROUP_LINE, 1, 3, 1, 0, 91, OUTSIDE]));
}

/// The group of 1 would give subject 5 more.
#[test]
fn an_own_line_of_0_decides_for_the_owner_too() {
    let mut tables = without_owner_line();
    tables.items.rows[0] = [5, 1, 1, 0];
    assert_explains(&tables, ([5, 0, 1], [OWN_LINE, 0, 0, 1, 0, 3, OUTSIDE]));
}

/// Subject 2 owns item 2 and grants role 7 to 4. What it has on the item by its own line, it can lend.
#[test]
fn a_grantor_who_is_an_owner_without_an_owner_line() {
    let mut tables = without_owner_line();
    tables.lines.rows.insert(0, [1, ITSELF, 2, 8]);
    assert_explains(&tables, ([4, 7, 2], [OWN_LINE, 0, 8, 1, 1, 11, 0]));
}

/// Subject 1 owns the list, which is its own list. By its own line it may edit it, so it is found and
/// may set a line.
#[test]
fn an_owner_who_may_edit_by_the_own_line() {
    let mut tables = without_owner_line();
    tables.lines.rows.insert(0, [1, ITSELF, 1, 64]);
    let image = &mut tables.image();
    assert_eq!(answer(image, Call::FindEditor { list: 1 }), accepted(1));
    let set = Call::SetLine {
        caller: 1,
        role: 0,
        list: 1,
        kind: OWNER,
        subject: 0,
        privileges: 7,
    };
    assert_eq!(answer(image, set), accepted(0));
    assert_eq!(answer(image, Call::FindEditor { list: 1 }), refused(20));
}

fn editor_of(tables: &Tables, list: u32) -> (u32, u32) {
    answer(&mut tables.image(), Call::FindEditor { list })
}

/// 1, 2 and 3 have the privilege to edit lists in their own rows, and no line of the sample gives it.
#[test]
fn no_editor() {
    assert_eq!(editor_of(&sample(), 1), refused(20));
    for list in [0, 2, 5, u32::MAX] {
        assert_eq!(editor_of(&sample(), list), refused(13));
    }
}

/// 3 by its own line, 2 by its group, then 1 by the owner line.
#[test]
fn the_lowest_editor() {
    let mut tables = sample();
    tables.lines.rows.insert(0, [1, ITSELF, 3, 64]);
    assert_eq!(editor_of(&tables, 1), accepted(3));
    tables.lines.rows[3] = [1, GROUP, 1, 64];
    assert_eq!(editor_of(&tables, 1), accepted(2));
    tables.lines.rows[4] = [1, OWNER, 0, 64];
    assert_eq!(editor_of(&tables, 1), accepted(1));
}

/// The line for everyone reaches all. Then 1 loses the right in its own row.
#[test]
fn the_lowest_editor_by_the_line_for_everyone() {
    let mut tables = sample();
    tables.lines.rows[4] = [1, EVERYONE, 0, 64];
    assert_eq!(editor_of(&tables, 1), accepted(1));
    tables.subjects.rows[1] = [0, 63, 0];
    tables.subjects.rows[2] = [1, 91, 0];
    assert_eq!(editor_of(&tables, 1), accepted(2));
}

/// 4 owns the list, so 3 can lend 1 what its own line gives it there. Only under that role may 1 edit,
/// and 1 is not named.
#[test]
fn an_editor_only_under_a_role() {
    let mut tables = sample();
    tables.items.rows[0] = [4, 1, 1, 0];
    tables.lines.rows.insert(0, [1, ITSELF, 3, 64]);
    tables.grants.rows.insert(0, [1, 8, 3, 3, 64]);
    let image = &mut tables.image();
    assert_eq!(permission_set(image, 1, 8, 1), accepted(65));
    assert_eq!(permission_set(image, 1, 0, 1), accepted(1));
    assert_eq!(editor_of(&tables, 1), accepted(3));
}

/// The custodian lends 1 the right to edit. Under role 0 nobody else has it.
#[test]
fn nobody_but_under_a_role() {
    let mut tables = sample();
    tables.grants.rows.insert(0, [1, 8, 0, 0, 64]);
    assert_eq!(permission_set(&mut tables.image(), 1, 8, 1), accepted(71));
    assert_eq!(editor_of(&tables, 1), refused(20));
}

/// Even if its line holds 0. The custodian's group is the highest.
#[test]
fn the_lowest_group_decides() {
    let mut tables = sample();
    tables.lines.rows[0] = [1, GROUP, 0, 64];
    tables.lines.rows[1] = [1, GROUP, 1, 3];
    tables.lines.rows[2] = [1, GROUP, 2, 0];
    assert_explains(&tables, ([5, 0, 2], [GROUP_LINE, 2, 0, 1, 0, 3, OUTSIDE]));
    assert_explains(&tables, ([2, 0, 3], [GROUP_LINE, 1, 3, 1, 0, 91, OUTSIDE]));
    assert_explains(
        &tables,
        ([1, 0, 2], [GROUP_LINE, 0, 64, 1, 0, 127, OUTSIDE]),
    );
}

/// Neither by the operation set nor by the grantor's own row. The owner line lets subject 2 discard
/// item 2, and 2 grants this to 4, though neither may discard at all.
#[test]
fn the_role_part_is_not_cut() {
    let mut tables = sample();
    tables.grants.rows[0] = [4, 7, 2, 2, 4];
    assert_explains(&tables, ([4, 7, 2], [OWN_LINE, 0, 8, 1, 4, 9, 0]));
}

/// The role's part is explained, though he has everything without it.
#[test]
fn the_custodian_under_a_role() {
    let mut tables = sample();
    tables.grants.rows[0] = [0, 7, 2, 2, 3];
    let on_item_2 = [CUSTODIAN, 0, u32::MAX, 0, 3, u32::MAX, 0];
    assert_explains(&tables, ([0, 7, 2], on_item_2));
    let outside_the_domain = [CUSTODIAN, 0, u32::MAX, 0, 0, u32::MAX, OUTSIDE];
    assert_explains(&tables, ([0, 7, 3], outside_the_domain));
}

/// His lines' part is all, even on an item without a list.
#[test]
fn a_role_granted_by_the_custodian() {
    let mut tables = sample();
    tables.grants.rows[0] = [5, 7, 0, 1, 66];
    assert_explains(&tables, ([5, 7, 4], [NOTHING_FOUND, 0, 0, 0, 66, 67, 1]));
}

/// The grant's domain is 2. An owner below it, 5, is one step away; 1 is above it, and 4 is elsewhere.
/// When the domain is the custodian, everybody is inside.
#[test]
fn the_steps_of_an_explanation() {
    let mut tables = sample();
    for (owner, role_set, steps) in [(2, 3, 0), (5, 3, 1), (1, 0, OUTSIDE), (4, 0, OUTSIDE)] {
        tables.items.rows[3] = [owner, 1, 0, 0];
        let (rule, set) = if owner == 4 {
            (OWNER_LINE, 7)
        } else {
            (OWN_LINE, 8)
        };
        assert_explains(&tables, ([4, 7, 4], [rule, 0, set, 1, role_set, 11, steps]));
    }
    tables.grants.rows[0] = [4, 7, 0, 0, 3];
    tables.items.rows[3] = [5, 1, 0, 0];
    assert_explains(&tables, ([4, 7, 4], [OWN_LINE, 0, 8, 1, 3, 11, 3]));
}

fn steps_up(tables: &Tables, subject: u32, root: u32) -> (u32, u32) {
    answer(&mut tables.image(), Call::StepsUp { subject, root })
}

/// 5 is below 2, 2 below 1, and 4 below 3. 1 and 3 are directly below the custodian.
#[test]
fn steps_up_to_each() {
    let far = [
        [0, OUTSIDE, OUTSIDE, OUTSIDE, OUTSIDE, OUTSIDE],
        [1, 0, OUTSIDE, OUTSIDE, OUTSIDE, OUTSIDE],
        [2, 1, 0, OUTSIDE, OUTSIDE, OUTSIDE],
        [1, OUTSIDE, OUTSIDE, 0, OUTSIDE, OUTSIDE],
        [2, OUTSIDE, OUTSIDE, 1, 0, OUTSIDE],
        [3, 2, 1, OUTSIDE, OUTSIDE, 0],
    ];
    for (subject, far) in (0..).zip(far) {
        for (root, steps) in (0..).zip(far) {
            let answered = steps_up(&sample(), subject, root);
            assert_eq!(answered, accepted(steps), "{subject} to {root}");
        }
    }
}

/// Whoever created 4, which is below 3.
#[test]
fn steps_count_parents() {
    let mut tables = sample();
    for creator in 0..4 {
        tables.subjects.rows[4] = [3, 0, creator];
        assert_eq!(steps_up(&tables, 4, 3), accepted(1));
        assert_eq!(steps_up(&tables, 4, 0), accepted(2));
        assert_eq!(steps_up(&tables, 4, 1), accepted(OUTSIDE));
    }
}

/// The image is asked about first, then both subjects. There is no caller.
#[test]
fn steps_refused() {
    for unknown in [6, 7, u32::MAX - 1, u32::MAX] {
        assert_eq!(steps_up(&sample(), unknown, 0), refused(11));
        assert_eq!(steps_up(&sample(), 0, unknown), refused(11));
        assert_eq!(steps_up(&sample(), unknown, unknown), refused(11));
    }
    let short = &mut sample().image()[..35];
    let call = Call::StepsUp {
        subject: 6,
        root: 6,
    };
    assert_eq!(answer(short, call), refused(1));
}

fn assert_explains(tables: &Tables, (asked, explained): Explained) {
    let [rule, group, rule_set, everyone_set, role_set, operations, steps] = explained;
    let explanation = Explanation {
        number: 0,
        rule,
        group,
        rule_set,
        everyone_set,
        role_set,
        operations,
        steps,
        folder: 0,
    };
    assert_answered(tables, asked, explanation);
}

fn assert_answered(tables: &Tables, [subject, role, item]: [u32; 3], explanation: Explanation) {
    let call = Question::new(subject, role, item).call();
    let outcome = compare(&mut tables.image(), &call, "no seed");
    assert_eq!(outcome.explanation, Some(explanation), "{call:?}");
}

#[test]
fn explanations_refused() {
    let unknown_subject = Explanation::refused(10);
    assert_answered(&sample(), [6, 0, 2], unknown_subject);
    assert_answered(&sample(), [6, 0, 0], unknown_subject);
    let unknown_item = Explanation::refused(12);
    assert_answered(&sample(), [2, 0, 0], unknown_item);
    assert_answered(&sample(), [2, 7, 5], unknown_item);
}

/// How many may read, replace, discard and annotate each item. The custodian is one of them. At the
/// other positions there is nobody else, because no line gives these. By role 7 subject 4 could
/// replace items 2 and 3, but here it is not claimed.
#[test]
fn the_counts_of_the_four_items() {
    let counted = [
        // Everyone's line lets all read. Subject 1 has the owner line, 2 the group line of 1, and 4
        // its own line. Subject 5 is below 1 too, but its own line gives nothing.
        (1, [6, 3, 2, 2]),
        // Subject 2 has the owner line, and 4 its own. 2 may not discard at all, and 1 is not below
        // itself.
        (2, [6, 2, 1, 2]),
        // Subject 2 has the group line of 1. 4 has the owner line now, which does not let it
        // annotate, and it may not replace or discard at all.
        (3, [6, 2, 1, 1]),
        // There is no list.
        (4, [1, 1, 1, 1]),
    ];
    for (item, first) in counted {
        assert_counts(&sample(), item, with_custodian(&first));
    }
}

/// Without the owner line, subject 4 may annotate its item 3 by its own line.
#[test]
fn the_counts_with_an_owners_own_line() {
    assert_counts(&without_owner_line(), 3, with_custodian(&[6, 2, 1, 2]));
}

/// Counts that begin with these. At the other positions the custodian is the only holder.
fn with_custodian(first: &[u32]) -> [u32; Counts::POSITIONS] {
    let mut counts = [1; Counts::POSITIONS];
    counts[..first.len()].copy_from_slice(first);
    counts
}

/// The highest privilege of the host's own: subject 3 has it, and everyone's line gives it.
#[test]
fn the_count_of_position_31() {
    let mut tables = sample();
    tables.subjects.rows[3] = [0, 73 | 1 << 31, 0];
    tables.lines.rows[4] = [1, EVERYONE, 0, 1 | 1 << 31];
    let mut expected = with_custodian(&[6, 2, 1, 2]);
    expected[31] = 2;
    assert_counts(&tables, 2, expected);
}

fn assert_counts(tables: &Tables, item: u32, expected: [u32; Counts::POSITIONS]) {
    let outcome = count_holders(&mut tables.image(), item, Counts::POSITIONS);
    assert_eq!((outcome.number, outcome.result), accepted(0));
    let counts = outcome.counts.expect("entries were lent");
    assert_eq!(counts.lent(), expected, "item {item}");
}

/// Makes the call on all three, which must agree.
fn count_holders(image: &mut [u8], item: u32, entries: usize) -> Outcome {
    compare(image, &Call::CountHolders { item, entries }, "no seed")
}

/// The item is asked about before the entries. These stay as they were.
#[test]
fn counts_refused() {
    let refusals = [
        (0, 32, 12),
        (5, 32, 12),
        (0, 31, 12),
        (5, 0, 12),
        (2, 31, 21),
        (2, 33, 21),
    ];
    for (item, entries, number) in refusals {
        let outcome = count_holders(&mut sample().image(), item, entries);
        assert_eq!((outcome.number, outcome.result), refused(number));
        let counts = outcome.counts.expect("entries were lent");
        assert_eq!(counts.lent(), vec![Counts::BEFORE; entries]);
    }
    let cut = &mut sample().image()[..335];
    assert_eq!(count_holders(cut, 0, 31).number, 2);
}

/// Whatever the entries hold, and only where the call is not refused.
#[test]
fn counts_are_overwritten() {
    let image = &sample().image();
    assert_overwritten(|item, counts| library::count_holders(image, item, counts).into());
    assert_overwritten(|item, counts| twin::count_holders(image, item, counts).into());
    assert_overwritten(|item, counts| yardstick::count_holders(image, item, counts).into());
}

fn assert_overwritten(count: impl Fn(u32, &mut [u32]) -> Outcome) {
    let mut counts = [u32::MAX; Counts::POSITIONS];
    assert_eq!(count(1, &mut counts).number, 0);
    assert_eq!(counts, with_custodian(&[6, 3, 2, 2]));
    assert_eq!(count(0, &mut counts).number, 12);
    assert_eq!(counts, with_custodian(&[6, 3, 2, 2]));
    assert_eq!(count(4, &mut counts).number, 0);
    assert_eq!(counts, with_custodian(&[]));
}

#[test]
fn a_definition_gives_what_the_caller_has() {
    let mut image = sample().image();
    let define = Call::DefineSubject {
        caller: 1,
        role: 0,
        parent: 2,
        privileges: 255,
    };
    assert_eq!(answer(&mut image, define), accepted(6));
    let mut expected = sample();
    expected.subjects.rows.push([2, 127, 1]);
    expected.subjects.spare = 0;
    assert_eq!(image, expected.image());
}

#[test]
fn definitions_refused() {
    for privileges in SOME_PRIVILEGES {
        let outside_the_tree = Call::DefineSubject {
            caller: 1,
            role: 0,
            parent: 3,
            privileges,
        };
        assert_eq!(on_sample(outside_the_tree), refused(16));
        for parent in 0..6 {
            let without_the_right = Call::DefineSubject {
                caller: 4,
                role: 7,
                parent,
                privileges,
            };
            assert_eq!(on_sample(without_the_right), refused(15));
        }
    }
}

#[test]
fn lines_are_not_set_without_the_right() {
    let named = (0..6).flat_map(|subject| [(ITSELF, subject), (GROUP, subject)]);
    for (kind, subject) in named.chain([(OWNER, 0), (EVERYONE, 0)]) {
        for privileges in SOME_PRIVILEGES {
            let set = Call::SetLine {
                caller: 1,
                role: 0,
                list: 1,
                kind,
                subject,
                privileges,
            };
            assert_eq!(on_sample(set), refused(15));
        }
    }
}

#[test]
fn grants_refused() {
    for (domain, number) in [(3, 18), (2, 16)] {
        for privileges in SOME_PRIVILEGES {
            let set = Call::SetGrant {
                caller: 3,
                receiver: 4,
                role: 7,
                domain,
                privileges,
            };
            assert_eq!(on_sample(set), refused(number));
        }
    }
}

#[test]
fn a_binding_by_the_owner_and_by_another() {
    let bind_by = |caller| Call::Bind {
        caller,
        item: 4,
        list: 1,
    };
    let mut image = sample().image();
    assert_eq!(answer(&mut image, bind_by(2)), accepted(0));
    assert_eq!(permission_set(&mut image, 2, 0, 4), accepted(3));
    let mut expected = sample();
    expected.items.rows[3] = [2, 1, 0, 0];
    assert_eq!(image, expected.image());

    assert_eq!(on_sample(bind_by(5)), refused(15));
}

#[test]
fn lengths() {
    for filler in [0, 1, 255] {
        assert_eq!(answer(&mut [filler; 35], Call::Check), refused(1));
        assert_eq!(answer(&mut vec![filler; 65_537], Call::Check), refused(1));
        assert_eq!(answer(&mut [filler; 36], Call::Check), refused(2));
    }
    let mut cut = sample().image();
    cut.truncate(35);
    assert_eq!(answer(&mut cut, Call::Check), refused(1));

    let mut no_subject = Tables::default().image();
    assert_eq!(no_subject.len(), 36);
    assert_eq!(answer(&mut no_subject, Call::Check), refused(2));

    let mut custodian = custodian_only(0).image();
    assert_eq!(custodian.len(), 48);
    assert_eq!(answer(&mut custodian, Call::Check), accepted(0));

    let mut too_long = custodian_only(0).image();
    too_long.resize(65_537, 0);
    set_field(&mut too_long, 8, 65_537);
    assert_eq!(answer(&mut too_long, Call::Check), refused(1));
}

/// The paper's example of a report: two subjects, and an item without a list that subject 1 owns.
#[test]
fn the_report_of_76_bytes() {
    let tables = Tables {
        subjects: Table {
            rows: vec![[0, u32::MAX, 0], [0, 0, 0]],
            spare: 0,
        },
        items: Table {
            rows: vec![[1, 0, 0, 0]],
            spare: 0,
        },
        ..Tables::default()
    };
    let mut image = tables.image();
    assert_eq!(image.len(), 76);
    assert_eq!(report(&image), "subject item set\n0 1 4294967295\n1 1 0\n");
    assert_eq!(permission_set(&mut image, 0, 0, 1), accepted(u32::MAX));
    assert_eq!(permission_set(&mut image, 1, 0, 1), accepted(0));

    assert_eq!(report(&image[..75]), "refused 2\n");
    assert_eq!(answer(&mut image[..75], Call::Check), refused(2));
    assert_eq!(report(&[]), "refused 1\n");
    assert_eq!(answer(&mut [], Call::Check), refused(1));
}
