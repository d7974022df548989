//! Cases about ducts: books, mesh records, scripts and queries.

pub mod books;
pub mod faults;
pub mod grounds;
pub mod queries;
pub mod records;
pub mod scripts;
