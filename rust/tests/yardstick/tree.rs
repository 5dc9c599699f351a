//! Who is below whom. Every parent has a lower number than its children, so a climb ends.

use super::rows::{Subject, SubjectRow};

/// Climbs of at most so many steps are no effort.
const SHORT_CLIMB: u32 = 8;

/// Steps up a chain that take as long as one step elsewhere.
const CHAIN_STEPS: usize = 4;

/// An index takes about as long as this many steps for each subject.
const INDEX_STEPS: usize = 3;

/// Where a climb ended, and how many steps it had.
struct Climb {
    reached: u32,
    steps: u32,
}

/// The subjects of an accepted image, by their parents.
#[derive(Clone, Copy)]
pub struct Tree<'a> {
    subjects: &'a [SubjectRow],
}

impl<'a> Tree<'a> {
    pub fn of(subjects: &'a [SubjectRow]) -> Tree<'a> {
        Tree { subjects }
    }

    pub fn len(self) -> usize {
        self.subjects.len()
    }

    #[inline]
    pub fn parent(self, subject: u32) -> u32 {
        Subject::of(&self.subjects[subject as usize]).parent
    }

    /// Is the subject the head or below it?
    pub fn is_in(self, subject: u32, head: u32) -> bool {
        self.climb(subject, head) == head
    }

    /// How many steps from the subject up to the head, if it is in its tree.
    pub fn steps_up(self, subject: u32, head: u32) -> Option<u32> {
        let climb = self.climb_counting(subject, head, &mut 0);
        (climb.reached == head).then_some(climb.steps)
    }

    /// From a subject upward, the first number that is not above the bound.
    #[inline]
    pub fn climb(self, from: u32, bound: u32) -> u32 {
        self.climb_counting(from, bound, &mut 0).reached
    }

    /// The same with its steps. If the climb is long, adds the effort to what there was already.
    #[inline]
    fn climb_counting(self, from: u32, bound: u32, effort: &mut usize) -> Climb {
        let mut reached = from;
        for steps in 0..SHORT_CLIMB {
            if reached <= bound {
                return Climb { reached, steps };
            }
            reached = self.parent(reached);
        }
        self.climb_far(reached, bound, effort)
    }

    /// Goes on after a short climb. Looks out for chains, in which each subject is directly below the
    /// one before it.
    #[cold]
    fn climb_far(self, from: u32, bound: u32, effort: &mut usize) -> Climb {
        let mut reached = from;
        let mut steps = SHORT_CLIMB;
        while reached > bound {
            let parent = self.parent(reached);
            *effort += 1;
            steps += 1;
            reached = if parent + 1 == reached {
                let end = self.climb_chain(parent, bound, effort);
                steps += parent - end;
                end
            } else {
                parent
            };
        }
        Climb { reached, steps }
    }

    /// Climbs to where a chain ends. Its rows are read one after the other: where the next row is does
    /// not depend on the parent in this one, so the processor need not wait for it.
    fn climb_chain(self, from: u32, bound: u32, effort: &mut usize) -> u32 {
        let rows = &self.subjects[bound as usize + 1..=from as usize];
        let below_before = |(before, row): &(u32, &SubjectRow)| Subject::of(row).parent == *before;
        let climbed = (bound..from)
            .zip(rows)
            .rev()
            .take_while(below_before)
            .count();
        *effort += climbed / CHAIN_STEPS;
        from - climbed as u32
    }

    /// Two passes: the sizes of all trees from the bottom, then the ordinals from the top.
    #[cold]
    fn index(self) -> Index {
        let subjects = 1..self.len();
        let parent = |subject| self.parent(subject as u32) as usize;
        let mut sizes = vec![1; self.len()];
        for subject in subjects.clone().rev() {
            sizes[parent(subject)] += sizes[subject];
        }
        let mut ordinals = vec![0; self.len()];
        // For each subject, the ordinal of the next tree directly below it.
        let mut next = vec![1; self.len()];
        for subject in subjects {
            let ordinal = &mut next[parent(subject)];
            ordinals[subject] = *ordinal;
            *ordinal += sizes[subject];
            next[subject] = ordinals[subject] + 1;
        }
        Index { ordinals, sizes }
    }
}

/// Many questions about one tree. Climbing is the quickest way to answer a few, or if the climbs are
/// short. Once they have taken about as long as an index would, an index answers the others.
pub struct Climbs<'a> {
    tree: Tree<'a>,
    effort: usize,
    index: Option<Index>,
}

impl<'a> Climbs<'a> {
    pub fn new(tree: Tree<'a>) -> Climbs<'a> {
        Climbs {
            tree,
            effort: 0,
            index: None,
        }
    }

    /// Is the subject the head or below it?
    #[inline]
    pub fn is_in(&mut self, subject: u32, head: u32) -> bool {
        if let Some(index) = &self.index {
            return index.is_in(subject, head);
        }
        let climb = self.tree.climb_counting(subject, head, &mut self.effort);
        if self.effort > INDEX_STEPS * self.tree.len() {
            self.index = Some(self.tree.index());
        }
        climb.reached == head
    }
}

/// The subjects in an order in which each tree stands together, its head first: where each subject
/// comes in that order, and how many are in its tree.
struct Index {
    ordinals: Vec<u32>,
    sizes: Vec<u32>,
}

impl Index {
    fn is_in(&self, subject: u32, head: u32) -> bool {
        let ordinal = self.ordinals[subject as usize];
        let from_head = ordinal.wrapping_sub(self.ordinals[head as usize]);
        from_head < self.sizes[head as usize]
    }
}
