use crate::bytes::{read_fields, HEADER_BYTES};
use crate::{
    check, Capacities, GrantRow, Item, ItemRow, LineRow, Refusal, Rows, Subject, SubjectRow,
};
use core::fmt;

/// The tables of an accepted image, to be read.
///
/// The image is checked once, when it is opened. It is lent as long as the tables are in use, so
/// nobody changes it meanwhile.
///
/// ```
/// use dacm::{Capacities, Item, Privileges, Refusal, Subject, Tables};
///
/// # fn main() -> Result<(), Refusal> {
/// let image = Capacities { subjects: 2, grants: 0, lines: 0, items: 1 }.empty_image()?;
/// let tables = Tables::open(&image)?;
/// assert_eq!(tables.capacities().subjects, 2);
/// assert_eq!(tables.subjects().len(), 1);
/// for row in tables.subjects() {
///     assert_eq!(row.privileges, Privileges::ALL);
/// }
/// assert_eq!(tables.subject(Subject(1)), None);
/// assert_eq!(tables.item(Item(1)), None);
/// # Ok(())
/// # }
/// ```
#[derive(Clone, Copy)]
pub struct Tables<'a> {
    image: &'a [u8],
    capacities: Capacities,
    subjects: Rows<'a, SubjectRow>,
    grants: Rows<'a, GrantRow>,
    lines: Rows<'a, LineRow>,
    items: Rows<'a, ItemRow>,
}

impl<'a> Tables<'a> {
    /// The tables of an image, refused as [`check`](crate::check) refuses the image.
    pub fn open(image: &'a [u8]) -> Result<Tables<'a>, Refusal> {
        check(image)?;
        Ok(Tables::of_accepted(image))
    }

    /// The tables as the header of an accepted image lays them out.
    fn of_accepted(image: &'a [u8]) -> Tables<'a> {
        let header = read_fields(&image[..HEADER_BYTES]).expect("a header has nine fields");
        let [subjects, subjects_at, grants, grants_at, lines, lines_at, items, items_at, total] =
            header.map(|field| field as usize);
        // Each table up to its capacity, with its free rows.
        let all_subjects = Rows::new(&image[subjects_at..grants_at]);
        let all_grants = Rows::new(&image[grants_at..lines_at]);
        let all_lines = Rows::new(&image[lines_at..items_at]);
        let all_items = Rows::new(&image[items_at..total]);
        Tables {
            image,
            capacities: Capacities {
                subjects: all_subjects.len(),
                grants: all_grants.len(),
                lines: all_lines.len(),
                items: all_items.len(),
            },
            subjects: all_subjects.first(subjects),
            grants: all_grants.first(grants),
            lines: all_lines.first(lines),
            items: all_items.first(items),
        }
    }

    /// How many rows each table can hold. Those that are not in use are free.
    pub fn capacities(&self) -> Capacities {
        self.capacities
    }

    /// The subjects in use. Subject n is at index n.
    pub fn subjects(&self) -> Rows<'a, SubjectRow> {
        self.subjects
    }

    /// The grants in use.
    pub fn grants(&self) -> Rows<'a, GrantRow> {
        self.grants
    }

    /// The lines of all lists.
    pub fn lines(&self) -> Rows<'a, LineRow> {
        self.lines
    }

    /// The items in use. Item n is at index n - 1.
    pub fn items(&self) -> Rows<'a, ItemRow> {
        self.items
    }

    /// The row of a subject, if it is in use.
    pub fn subject(&self, subject: Subject) -> Option<SubjectRow> {
        self.subjects.get(subject.0 as usize)
    }

    /// The row of an item, if it is in use.
    pub fn item(&self, item: Item) -> Option<ItemRow> {
        let index = item.0.checked_sub(1)?;
        self.items.get(index as usize)
    }

    /// The lines of one list, refused with [`NotAList`](Refusal::NotAList) where it is no access
    /// list in use.
    ///
    /// It makes the call [`lines_of`](crate::lines_of), so the image is checked again.
    pub fn lines_of(&self, list: Item) -> Result<Rows<'a, LineRow>, Refusal> {
        crate::lines_of(self.image, list).map(Rows::new)
    }
}

/// The capacities and the rows in use, not the bytes of the image.
impl fmt::Debug for Tables<'_> {
    fn fmt(&self, out: &mut fmt::Formatter<'_>) -> fmt::Result {
        out.debug_struct("Tables")
            .field("capacities", &self.capacities)
            .field("subjects", &self.subjects)
            .field("grants", &self.grants)
            .field("lines", &self.lines)
            .field("items", &self.items)
            .finish()
    }
}
