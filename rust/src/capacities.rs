use crate::bytes::{write_fields, HEADER_BYTES};
use crate::{GrantRow, ItemRow, LineRow, Privileges, Refusal, Row, SubjectRow};
#[cfg(feature = "std")]
use std::{vec, vec::Vec};

/// The most bytes that an image may have.
const LONGEST: usize = 65_536;

/// How many rows each table of an image can hold. That is fixed when the image is made.
///
/// ```
/// use dacm::{Capacities, Refusal};
///
/// # fn main() -> Result<(), Refusal> {
/// const LIBRARY: Capacities = Capacities { subjects: 100, grants: 20, lines: 200, items: 500 };
/// let image = LIBRARY.empty_image()?;
/// assert_eq!(image.len(), 12_836);
/// dacm::check(&image)?;
/// # Ok(())
/// # }
/// ```
///
/// Without a heap, a constant has the length:
///
/// ```
/// # use dacm::{Capacities, Refusal};
/// # fn main() -> Result<(), Refusal> {
/// const SMALL: Capacities = Capacities { subjects: 3, grants: 1, lines: 2, items: 2 };
/// const BYTES: usize = match SMALL.image_bytes() {
///     Ok(bytes) => bytes,
///     Err(_) => panic!("no image has these capacities"),
/// };
/// let mut image = [0; BYTES];
/// SMALL.write_empty_image(&mut image)?;
/// # dacm::check(&image)
/// # }
/// ```
#[derive(Clone, Copy, Debug, Default, PartialEq, Eq, Hash)]
pub struct Capacities {
    /// Rows for subjects. The custodian's row is one of them, so there is at least one.
    pub subjects: usize,
    /// Rows for grants.
    pub grants: usize,
    /// Rows for the lines of all lists together.
    pub lines: usize,
    /// Rows for items, documents and lists together.
    pub items: usize,
}

impl Capacities {
    /// How many bytes an image with these capacities has.
    ///
    /// Refused with [`BadLength`](Refusal::BadLength) where that is more than 65,536, and with
    /// [`BadLayout`](Refusal::BadLayout) where no row is left for the custodian.
    pub const fn image_bytes(self) -> Result<usize, Refusal> {
        // What does not fit into a usize is too long, and so is the highest usize.
        let bytes = HEADER_BYTES
            .saturating_add(self.subjects.saturating_mul(SubjectRow::BYTES))
            .saturating_add(self.grants.saturating_mul(GrantRow::BYTES))
            .saturating_add(self.lines.saturating_mul(LineRow::BYTES))
            .saturating_add(self.items.saturating_mul(ItemRow::BYTES));
        if bytes > LONGEST {
            Err(Refusal::BadLength)
        } else if self.subjects == 0 {
            Err(Refusal::BadLayout)
        } else {
            Ok(bytes)
        }
    }

    /// Writes an empty image: only the custodian's row is in use. It overwrites every byte.
    ///
    /// Refused as [`image_bytes`](Capacities::image_bytes) is, and with
    /// [`BadLength`](Refusal::BadLength) where the slice does not have exactly that many bytes. Then
    /// no byte is written.
    pub fn write_empty_image(self, image: &mut [u8]) -> Result<(), Refusal> {
        if self.image_bytes()? != image.len() {
            return Err(Refusal::BadLength);
        }
        let custodian = [0, Privileges::ALL.0, 0]; // parent, privileges, creator
        image.fill(0);
        write_fields(image, &self.header());
        write_fields(&mut image[HEADER_BYTES..], &custodian);
        Ok(())
    }

    /// An empty image, as [`write_empty_image`](Capacities::write_empty_image) makes it.
    ///
    /// Refused as [`image_bytes`](Capacities::image_bytes) is.
    #[cfg(feature = "std")]
    pub fn empty_image(self) -> Result<Vec<u8>, Refusal> {
        let mut image = vec![0; self.image_bytes()?];
        self.write_empty_image(&mut image)?;
        Ok(image)
    }

    /// The header of the empty image: used rows and offset of each table, then the total.
    fn header(self) -> [u32; 9] {
        let subjects = HEADER_BYTES;
        let grants = subjects + self.subjects * SubjectRow::BYTES;
        let lines = grants + self.grants * GrantRow::BYTES;
        let items = lines + self.lines * LineRow::BYTES;
        let total = items + self.items * ItemRow::BYTES;
        [1, subjects, 0, grants, 0, lines, 0, items, total].map(|field| field as u32)
    }
}
