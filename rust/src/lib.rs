//! The access tables of a document library: who may read, replace or discard which document.
//!
//! The tables are kept in one image: bytes that the host lends to every call. Every call takes any
//! bytes and any numbers. It does its job, or it answers a [`Refusal`] and leaves every byte as it
//! was. The calls are functions of a proved static library; this crate only gives them Rust types.
//!
//! # Stack
//!
//! A call uses at most [`STACK_BYTES`] of stack, whatever the image holds. The search for a group's
//! line is recursive, with at most one level more than the list has group lines. The longest search
//! that fits into an image has some 1,640. Folders are followed in a loop.
//!
//! # An image and some calls
//!
//! An image is 36 to 65,536 bytes: a header, and then the tables of subjects, grants, lines and
//! items. Each table has a fixed capacity. Rows in use come first, and free rows are zero.
//! [`Capacities`] makes an empty image, the calls fill it, and [`Tables`] shows what it holds:
//!
//! ```
//! use dacm::{Capacities, Flags, Item, Kind, Privileges, Refusal, Role, Rule, Subject, Tables};
//!
//! # fn main() -> Result<(), Refusal> {
//! // The custodian, and free rows for 2 more subjects, 1 grant, 2 lines and 2 items.
//! let capacities = Capacities { subjects: 3, grants: 1, lines: 2, items: 2 };
//! let mut image = capacities.empty_image()?;
//!
//! // The custodian defines an engineer. She defines a technician below her, who gets only what she
//! // has herself.
//! let (custodian, no_role) = (Subject::CUSTODIAN, Role::NONE);
//! let hers = Privileges::READ | Privileges::CREATE_ITEMS | Privileges::DEFINE_SUBJECTS;
//! let engineer = dacm::define_subject(&mut image, custodian, no_role, custodian, hers)?;
//! let all = Privileges::ALL;
//! let technician = dacm::define_subject(&mut image, engineer, no_role, engineer, all)?;
//! assert_eq!(dacm::operation_set(&image, technician, no_role)?, hers);
//!
//! // A list on which whoever is below the engineer may read, and a document of hers under it.
//! // Neither is in a folder.
//! let (read, none) = (Privileges::READ, Item::NONE);
//! let list = dacm::create_item(&mut image, custodian, no_role, none, Flags::IS_LIST, none)?;
//! dacm::set_line(&mut image, custodian, no_role, list, Kind::GROUP, engineer, read)?;
//! let document = dacm::create_item(&mut image, engineer, no_role, list, Flags::NONE, none)?;
//! let set = dacm::permission_set(&image, technician, no_role, document)?;
//! assert!(set.contains(Privileges::READ));
//! assert_eq!(set.to_string(), "read");
//!
//! // Why that? The line for whoever is below the engineer decided.
//! let explanation = dacm::explain(&image, technician, no_role, document)?;
//! assert_eq!(explanation.rule, Rule::GroupLine(engineer));
//!
//! // How many may read it? The custodian and the technician: nobody is below herself.
//! let counts = dacm::count_holders(&image, document)?;
//! assert_eq!(counts[0], 2); // READ is position 0
//!
//! // The technician may not edit the list, and a refused call changes nothing.
//! let before = image.clone();
//! let tried = dacm::set_line(&mut image, technician, no_role, list, Kind::ITSELF, technician, all);
//! assert_eq!(tried, Err(Refusal::NotPermitted));
//! assert_eq!(image, before);
//!
//! // The tables are read from the image itself.
//! let tables = Tables::open(&image)?;
//! for line in tables.lines_of(list)? {
//!     println!("{} {}: {}", line.kind, line.subject.0, line.privileges); // group 1: read
//! }
//! let owner = tables.item(document).map(|row| row.owner);
//! assert_eq!(owner, Some(engineer));
//! # Ok(())
//! # }
//! ```
//!
//! # Features and the archive
//!
//! The feature `std` is on by default. It adds `Capacities::empty_image`, which makes a `Vec`.
//! Without it the crate needs only `core`; [`Capacities::write_empty_image`] then writes the image
//! into bytes that the host has.
//!
//! The crate links the proved static library `libdacm.a`. Where the environment variable
//! `DACM_LIB_DIR` names a directory, it is taken from there; a relative path counts from the crate's
//! directory. Otherwise it is taken from `target/staticlib` in the directory above the crate, where
//! `make archive` builds it.

#![no_std]
#![warn(missing_docs)]
#![deny(unsafe_code)]

#[cfg(any(feature = "std", test))]
extern crate std;

mod asking;
mod bits;
mod bytes;
mod capacities;
mod changing;
mod explanation;
#[allow(unsafe_code)]
mod ffi;
mod fields;
mod numbers;
mod privileges;
mod refusal;
mod row;
mod rows;
mod tables;

pub use asking::{
    check, count_holders, explain, find_editor, lines_of, list_count, operation_set,
    permission_set, steps_up,
};
pub use capacities::Capacities;
pub use changing::{
    bind, create_item, define_subject, hand_over, remove_grant, remove_line, set_grant, set_line,
};
pub use explanation::{Explanation, Rule};
pub use fields::{Flags, Kind};
pub use numbers::{Item, Role, Subject};
pub use privileges::Privileges;
pub use refusal::Refusal;
pub use row::{GrantRow, ItemRow, LineRow, Row, SubjectRow};
pub use rows::{Rows, RowsIter};
pub use tables::Tables;

/// The stack that a call may need, on the longest search for a group's line that an image can hold.
pub const STACK_BYTES: usize = 512 * 1024;

/// The Rust blocks of the README run as documentation tests.
#[cfg(doctest)]
#[doc = include_str!("../../README.md")]
struct Readme;
