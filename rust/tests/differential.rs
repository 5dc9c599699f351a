//! Every call on random, damaged and extreme images: the library against the twin, and the yardstick
//! beside them.
//!
//! Compared are the number, the result, the slice that `lines_of` shows, every field of an
//! explanation, every count, and every byte of the image afterwards.
//!
//! The test of accepted images demands at its end that each call was accepted, and refused with each
//! of its own questions. The test of damaged images demands that each call was refused with each of
//! the questions 1 to 7. The test of explanations demands that there was one of each sort, the test of
//! counts that at each position one, several and all subjects were counted, the test of editors that
//! each rule, and the line for everyone, made the only editor and the lowest of several, and the test
//! of steps that there were none, one, two, more, and roots out of reach. The test of folders demands
//! that one, two and more folders applied, that some of them cut the set and others did not; the tests
//! of counts and editors demand that too.

mod support;
mod twin;
mod yardstick;

use std::collections::BTreeSet;
use support::boundary::{boundary_images, telling_tables, Boundary};
use support::call::{Call, Counts};
use support::choose::{Chooser, ENTRIES, ROLES};
use support::compare::compare;
use support::coverage::Coverage;
use support::damage::{damage, telling_values};
use support::editors::{by_folders, expected, ByFolders, Ending};
use support::examples::Examples;
use support::explanation::{Question, GROUP_LINE, NOTHING_FOUND, OUTSIDE, OWNER_LINE, OWN_LINE};
use support::holders::{counts_of_own_sets, counts_of_sets};
use support::libraries::Size;
use support::random::Random;
use support::rounds;
use support::sample::sample;
use support::tables::{field_count, set_field, Tables, FOLDER_APPLIES, IS_LIST};

#[test]
fn accepted_images() {
    let coverage = &mut Coverage::default();
    each_call_on_libraries("a small library", rounds(100_000), Size::small, coverage);
    each_call_on_libraries("a larger library", rounds(100), Size::larger, coverage);
    each_call_on_libraries("the longest library", rounds(20), Size::longest, coverage);
    coverage.assert_own_questions();
}

#[test]
fn damaged_images() {
    let coverage = &mut Coverage::default();
    for seed in 0..rounds(120_000) {
        let random = &mut Random::new(seed);
        let tables = Size::small(random).library(random);
        let mut image = tables.image();
        damage(random, &mut image);
        let seed = format!("a damaged library, seed {seed}");
        each_call_on_a_copy(random, &tables, &image, &seed, coverage);
    }
    coverage.assert_common_questions();
}

/// Everything that explain can be asked about small libraries: each subject under each role on each
/// item, and numbers that are not in use.
#[test]
fn explanations() {
    let mut examples = Examples::default();
    for seed in 0..rounds(2_000) {
        let random = &mut Random::new(seed);
        let tables = Size::small(random).library(random);
        let mut image = tables.image();
        let seed = format!("a small library, seed {seed}");
        for question in every_question(&tables) {
            let outcome = compare(&mut image, &question.call(), &seed);
            assert_eq!(outcome.number, refusal(&tables, &question), "{question:?}");
            let explanation = outcome.explanation.expect("it is an explanation");
            examples.saw(&tables, &question, &explanation);
        }
    }
    examples.assert_all_seen();
}

/// Everything that the permission set can be asked about small libraries. It is what the own sets share
/// that the library explains, from the item up the folders that apply.
#[test]
fn folders() {
    let seen = &mut BTreeSet::new();
    for seed in 0..rounds(2_000) {
        let random = &mut Random::new(seed);
        let tables = Size::small(random).library(random);
        let image = &mut tables.image();
        let seed = format!("a small library, seed {seed}");
        for question in every_question(&tables) {
            let outcome = compare(image, &question.set(), &seed);
            let number = refusal(&tables, &question);
            assert_eq!(outcome.number, number, "{seed}: {question:?}");
            if number == 0 {
                let own_sets = own_sets_on_way_up(image, &tables, &question);
                let shared = own_sets.iter().fold(u32::MAX, |set, own| set & own);
                assert_eq!(outcome.result, shared, "{seed}: {question:?}");
                let under_role = tables.domain_of(question.subject, question.role).is_some();
                let is_cut = shared != own_sets[0];
                seen.insert((own_sets.len().min(4) - 1, is_cut, under_role));
            }
        }
    }
    assert_eq!(seen, &every_folding());
}

/// The own sets of the item and of each folder that applies, as the library explains them.
fn own_sets_on_way_up(image: &[u8], tables: &Tables, question: &Question) -> Vec<u32> {
    let own_set = |item| {
        let call = Question { item, ..*question }.call();
        let explanation = call.ask_library(image).explanation;
        explanation.expect("it is an explanation").own_set()
    };
    let way_up = tables.way_up(question.item);
    way_up.into_iter().map(own_set).collect()
}

/// How many folders applied, three standing for more; whether the set was smaller than the item's own;
/// and whether a role was granted.
type Folding = (usize, bool, bool);

/// Without a folder nothing is cut.
fn every_folding() -> BTreeSet<Folding> {
    let cases = (0..4).flat_map(|applied| [(applied, false), (applied, true)]);
    let cases = cases.filter(|case| *case != (0, true));
    cases
        .flat_map(|(applied, is_cut)| [(applied, is_cut, false), (applied, is_cut, true)])
        .collect()
}

/// Ways up through dozens of folders, on which the yardstick remembers what it has met. In most of the
/// libraries the lines give many privileges, so that something is left at the end.
#[test]
fn many_folders() {
    let seen = &mut BTreeSet::new();
    for seed in 0..rounds(1_000) {
        let random = &mut Random::new(seed);
        let tables = with_many_folders(random);
        let image = &mut tables.image();
        let seed = format!("many folders, seed {seed}");
        let list = tables.items.used() as u32;
        compare(image, &Call::FindEditor { list }, &seed);
        compare_counts(
            &tables,
            list,
            Counts::POSITIONS,
            &seed,
            &mut Counted::default(),
        );
        let questions = every_question(&tables).into_iter();
        for question in questions.filter(|question| question.item == list) {
            let set = compare(image, &question.set(), &seed).result;
            let own_sets = own_sets_on_way_up(image, &tables, &question);
            let shared = own_sets.iter().fold(u32::MAX, |set, own| set & own);
            assert_eq!(set, shared, "{seed}: {question:?}");
            let under_role = tables.domain_of(question.subject, question.role).is_some();
            seen.insert((set != 0, set != own_sets[0], under_role));
        }
    }
    assert_eq!(seen.len(), 8, "{seen:?}");
}

/// A small library with a chain of items behind it, each in the one before, which applies as its folder.
/// The last one is a list.
fn with_many_folders(random: &mut Random) -> Tables {
    let mut tables = Size::small(random).library(random);
    let times = random.below(4);
    for [_, _, _, privileges] in &mut tables.lines.rows {
        *privileges |= (0..times).fold(0, |given, _| given | random.number());
    }
    for [.., privileges] in &mut tables.grants.rows {
        *privileges |= random.number();
    }
    let lists = tables.lists();
    let count = 20 + random.below(40);
    for number in 1..=count {
        let owner = random.below(tables.subjects.used()) as u32;
        let list = random.pick_any(&lists).unwrap_or(0);
        let folder = tables.items.used() as u32;
        let applies = if folder == 0 { 0 } else { FOLDER_APPLIES };
        let is_list = if number == count { IS_LIST } else { 0 };
        let row = [owner, list, applies | is_list, folder];
        tables.items.rows.push(row);
    }
    tables
}

fn every_question(tables: &Tables) -> Vec<Question> {
    let mut questions = Vec::new();
    for subject in 0..=tables.subjects.used() as u32 {
        for role in [0].into_iter().chain(ROLES) {
            for item in 0..=tables.items.used() as u32 + 1 {
                questions.push(Question::new(subject, role, item));
            }
        }
    }
    questions
}

/// The refusal on an accepted image: question 10 is asked before question 12.
fn refusal(tables: &Tables, question: &Question) -> u32 {
    if question.subject as usize >= tables.subjects.used() {
        10
    } else if !has_item(tables, question.item) {
        12
    } else {
        0
    }
}

fn has_item(tables: &Tables, item: u32) -> bool {
    (1..=tables.items.used()).contains(&(item as usize))
}

/// Everything that count holders can be asked about small libraries: each item and numbers that are
/// not in use, with each number of entries. And one item of some larger ones.
#[test]
fn counts() {
    let seen = &mut Counted::default();
    for seed in 0..rounds(2_000) {
        let random = &mut Random::new(seed);
        let tables = Size::small(random).library(random);
        let seed = format!("a small library, seed {seed}");
        for item in 0..=tables.items.used() as u32 + 1 {
            for entries in ENTRIES {
                compare_counts(&tables, item, entries, &seed, seen);
            }
        }
    }
    for seed in 0..rounds(10) {
        let random = &mut Random::new(seed);
        let tables = Size::larger(random).library(random);
        let item = (tables.items.used() as u32).div_ceil(2);
        let seed = format!("a larger library, seed {seed}");
        compare_counts(&tables, item, Counts::POSITIONS, &seed, seen);
    }
    let Counted { shares, folders } = seen;
    assert_eq!(shares.len(), 3 * Counts::POSITIONS, "{shares:?}");
    assert_eq!(folders.len(), 7, "{folders:?}");
}

/// What the test of counts has seen.
#[derive(Default)]
struct Counted {
    /// Who was counted at each position.
    shares: BTreeSet<(usize, Share)>,
    /// How many folders applied, three standing for more, and whether they left out anybody.
    folders: BTreeSet<(usize, bool)>,
}

/// Who was counted at a position.
#[derive(Clone, Copy, Debug, PartialEq, Eq, PartialOrd, Ord)]
enum Share {
    One,
    Several,
    All,
}

/// Unless the call is refused, each count is that of the permission sets which have the position.
/// Adds what was seen.
fn compare_counts(tables: &Tables, item: u32, entries: usize, seed: &str, seen: &mut Counted) {
    let mut image = tables.image();
    let call = Call::CountHolders { item, entries };
    let outcome = compare(&mut image, &call, seed);
    let number = refusal_of_counts(tables, item, entries);
    assert_eq!(outcome.number, number, "{seed}: {call:?}");
    if number != 0 {
        return;
    }
    let counts = outcome.counts.expect("entries were lent");
    assert_eq!(
        counts.lent(),
        counts_of_sets(&image, item),
        "{seed}: {call:?}"
    );
    let subjects = tables.subjects.used() as u32;
    let share = |&count: &u32| match count {
        1 => Share::One,
        count if count < subjects => Share::Several,
        _ => Share::All,
    };
    let shares = counts.lent().iter().map(share).enumerate();
    seen.shares.extend(shares);
    let applied = tables.way_up(item).len() - 1;
    let left_out = counts.lent() != counts_of_own_sets(&image, item);
    seen.folders.insert((applied.min(3), left_out));
}

/// The refusal on an accepted image: question 12 is asked before question 21.
fn refusal_of_counts(tables: &Tables, item: u32, entries: usize) -> u32 {
    if !has_item(tables, item) {
        12
    } else if entries != Counts::POSITIONS {
        21
    } else {
        0
    }
}

/// Everything that the editor search can be asked about small libraries: each list, and numbers that
/// are no list.
#[test]
fn editors() {
    let endings = &mut BTreeSet::new();
    let folders = &mut BTreeSet::new();
    for seed in 0..rounds(20_000) {
        let random = &mut Random::new(seed);
        let tables = Size::small(random).library(random);
        let image = &mut tables.image();
        let seed = format!("a small library, seed {seed}");
        for list in 0..=tables.items.used() as u32 + 1 {
            let outcome = compare(image, &Call::FindEditor { list }, &seed);
            let (number, result, ending) = expected(&tables, image, list);
            assert_eq!(
                (outcome.number, outcome.result),
                (number, result),
                "{seed}, list {list}"
            );
            endings.insert(ending);
            if ending != Ending::NoList {
                let named = (number == 0).then_some(result);
                let by_folders = by_folders(&tables, image, list, named);
                folders.insert((named.is_some(), by_folders));
            }
        }
    }
    assert_eq!(endings, &every_ending());
    let by_folders = [
        ByFolders::NoneApplies,
        ByFolders::NobodyIsPassedOver,
        ByFolders::SomebodyIsPassedOver,
    ];
    let every_way = by_folders.map(|by_folders| [(false, by_folders), (true, by_folders)]);
    assert_eq!(folders, &every_way.into_iter().flatten().collect());
}

fn every_ending() -> BTreeSet<Ending> {
    let mut endings = BTreeSet::from([Ending::NoList]);
    for under_role in [false, true] {
        endings.insert(Ending::Nobody { under_role });
        for rule in [OWNER_LINE, OWN_LINE, GROUP_LINE, NOTHING_FOUND] {
            endings.extend([false, true].map(|several| Ending::Named {
                rule,
                several,
                under_role,
            }));
        }
    }
    endings
}

/// Everything that the steps can be asked about small libraries: each subject and each root, and a
/// number that is not in use.
#[test]
fn steps() {
    let ways = &mut BTreeSet::new();
    for seed in 0..rounds(5_000) {
        let random = &mut Random::new(seed);
        let tables = Size::small(random).library(random);
        let image = &mut tables.image();
        let seed = format!("a small library, seed {seed}");
        let by_creators = with_creators_as_parents(&tables);
        let used = tables.subjects.used() as u32;
        for (subject, root) in (0..=used).flat_map(|s| (0..=used).map(move |root| (s, root))) {
            let outcome = compare(image, &Call::StepsUp { subject, root }, &seed);
            let refusal = if subject.max(root) < used { 0 } else { 11 };
            assert_eq!(outcome.number, refusal, "{seed}, {subject} to {root}");
            if refusal == 0 {
                let steps = (outcome.result != OUTSIDE).then_some(outcome.result);
                let same = by_creators.steps_up(subject, root) == steps;
                ways.insert((steps.map(|steps| steps.min(3)), same));
            }
        }
    }
    assert_eq!(ways, &every_way());
}

/// Where a root is: so many steps up, three standing for more, or outside; and whether it would be as
/// far if one went up from each subject to its creator.
type Way = (Option<u32>, bool);

fn with_creators_as_parents(tables: &Tables) -> Tables {
    let mut tables = tables.clone();
    for [parent, _, creator] in &mut tables.subjects.rows {
        *parent = *creator;
    }
    tables
}

/// Whoever is the root itself is so by its creators too.
fn every_way() -> BTreeSet<Way> {
    let far = [Some(1), Some(2), Some(3), None];
    let ways = far
        .into_iter()
        .flat_map(|steps| [(steps, false), (steps, true)]);
    ways.chain([(Some(0), true)]).collect()
}

/// Every field of the sample and of some random images, replaced in turn by every value that is
/// likely to show a fault.
#[test]
fn every_field_replaced() {
    replace_every_field("the sample", &sample());
    for seed in 0..rounds(60) {
        let random = &mut Random::new(seed);
        let tables = Size::small(random).library(random);
        replace_every_field(&format!("a small library, seed {seed}"), &tables);
    }
}

fn replace_every_field(name: &str, tables: &Tables) {
    let random = &mut Random::new(0);
    let image = tables.image();
    for field in 0..field_count(&image) {
        for value in telling_values(&image) {
            let mut damaged = image.clone();
            set_field(&mut damaged, field, value);
            let seed = format!("{name}, field {field} is {value}");
            let call = Chooser { random, tables }.any_call();
            compare(&mut damaged.clone(), &Call::Check, &seed);
            compare(&mut damaged, &call, &seed);
        }
    }
}

/// Trees of a hundred levels and more, with so many grants that the yardstick does not climb for each
/// of them but makes an index of the tree.
#[test]
fn many_grants_in_deep_trees() {
    let mut numbers = BTreeSet::new();
    for seed in 0..rounds(10) {
        let random = &mut Random::new(seed);
        let tables = deep_tree_with_grants(random, 300, 200);
        let accepted = compare(
            &mut tables.image(),
            &Call::Check,
            "grants as they should be",
        );
        assert_eq!(accepted.number, 0, "seed {seed}");
        for grant in 0..tables.grants.used() {
            let mut changed = tables.clone();
            let [_, _, _, domain, _] = &mut changed.grants.rows[grant];
            *domain = random.below(300) as u32;
            let case = format!("seed {seed}, domain of grant {grant} is {domain}");
            let outcome = compare(&mut changed.image(), &Call::Check, &case);
            numbers.insert(outcome.number);
        }
    }
    assert_eq!(numbers, BTreeSet::from([0, 6]));
}

/// Each subject is below one of the three before it. Each grantor is up to 100 levels above the
/// domain.
fn deep_tree_with_grants(random: &mut Random, subjects: usize, grants: usize) -> Tables {
    let mut tables = sample();
    tables.subjects.rows.truncate(1);
    for number in 1..subjects {
        let parent = number - 1 - random.below(number.min(3));
        tables.subjects.rows.push([parent as u32, 127, 0]);
    }
    let parents: Vec<u32> = tables.subjects.rows.iter().map(|row| row[0]).collect();
    let grant = |receiver| {
        let domain = random.below(subjects) as u32;
        let levels = random.up_to(100);
        let grantor = (0..levels).fold(domain, |reached, _| parents[reached as usize]);
        [receiver, 7, grantor, domain, 127]
    };
    tables.grants.rows = (0..grants as u32).map(grant).collect();
    tables
}

#[test]
fn boundary_images_and_far_out_numbers() {
    for Boundary { name, image } in boundary_images() {
        let tables = telling_tables(&image);
        let times = if image.len() < 1_000 { 100 } else { 10 };
        for seed in 0..rounds(times) {
            let random = &mut Random::new(seed);
            let seed = format!("{name}, seed {seed}");
            each_call_on_a_copy(random, &tables, &image, &seed, &mut Coverage::default());
        }
    }
}

/// Makes each call on random libraries of a size.
fn each_call_on_libraries(
    name: &str,
    count: u64,
    size: impl Fn(&mut Random) -> Size,
    coverage: &mut Coverage,
) {
    for seed in 0..count {
        let random = &mut Random::new(seed);
        let tables = size(random).library(random);
        let seed = format!("{name}, seed {seed}");
        each_call_on_a_copy(random, &tables, &tables.image(), &seed, coverage);
    }
}

/// Makes each call once, on a fresh copy of the image, with arguments chosen for these tables.
fn each_call_on_a_copy(
    random: &mut Random,
    tables: &Tables,
    image: &[u8],
    seed: &str,
    coverage: &mut Coverage,
) {
    for index in 0..Call::NAMES.len() {
        let call = Chooser { random, tables }.call(index);
        let outcome = compare(&mut image.to_vec(), &call, seed);
        coverage.saw(&call, &outcome);
    }
}
