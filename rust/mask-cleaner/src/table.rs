//! A table that the library accepted.

use crate::library;
use crate::record::{front, TableRecord, MAX_TABLE_FILE};
use crate::refusal::Refusal;
use std::fmt;

/// A table that the library accepted.
#[derive(Clone, Copy, PartialEq, Eq)]
pub struct Table(TableRecord);

impl Table {
    /// Refused by 3, 4, 18, 6, 5, 7.
    pub fn from_record(record: TableRecord) -> Result<Table, Refusal> {
        library::check_table(&record)?;
        Ok(Table(record))
    }

    /// Refused by 1 and 2, and the range rules, number by number; then by 8, 5, 7.
    pub fn from_file(file: &[u8]) -> Result<Table, Refusal> {
        library::read_table(file).map(Table)
    }

    /// The table's file. An accepted table is not refused.
    pub fn to_file(&self) -> Result<Vec<u8>, Refusal> {
        let mut file = vec![0; MAX_TABLE_FILE];
        let length = library::write_table(&self.0, &mut file)?;
        file.truncate(length);
        Ok(file)
    }

    /// The table as a record.
    pub fn record(&self) -> &TableRecord {
        &self.0
    }

    /// The structuring elements, rising.
    pub fn elements(&self) -> &[u32] {
        front(&self.0.elements, self.0.count)
    }

    /// The persistent elements, rising.
    pub fn persistents(&self) -> &[u32] {
        front(&self.0.persistents, self.0.ranks)
    }
}

impl fmt::Debug for Table {
    fn fmt(&self, f: &mut fmt::Formatter<'_>) -> fmt::Result {
        f.debug_struct("Table")
            .field("elements", &self.elements())
            .field("persistents", &self.persistents())
            .finish()
    }
}
