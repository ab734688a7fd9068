//! Checks the header and the tables before a dump or a text is written.

use super::{
    is_class_name, range, Header, Reply, Row, Stop, Tables, CLASS, COUNT_LIMIT, HASHED, INT_HASH,
    NO_HASH, OBJECT, OBJECT_ARRAY, PRIMITIVE_ARRAY, ROW_LEN, SHORT_HASH, TABLE_LIMIT,
};

/// A header and tables that passed every check.
pub(super) struct CheckedTables<'a> {
    pub header: Header,
    rows: &'a [[u64; ROW_LEN]],
    refs: &'a [u64],
    names: &'a [u8],
}

impl<'a> CheckedTables<'a> {
    /// Checks the tables: the header first, then the rows in order. The first that is bad gives the refusal.
    pub fn check(tables: &Tables<'a>) -> Result<CheckedTables<'a>, Stop> {
        let (refs, names) = (tables.refs, tables.names);
        let header = Header::check(&tables.header, names).ok_or((Reply::BadHeader, 0))?;
        let rows = tables.rows.as_chunks::<ROW_LEN>().0;
        if rows.len() > TABLE_LIMIT || refs.len() > TABLE_LIMIT {
            return Err((Reply::BadHeader, 0));
        }
        let checked = CheckedTables {
            header,
            rows,
            refs,
            names,
        };
        let mut before = 0;
        for (index, row) in checked.rows().enumerate() {
            if row.first != before || !checked.is_good(&row) {
                return Err((Reply::BadRow, index as u64));
            }
            before += row.count;
        }
        Ok(checked)
    }

    /// Returns the rows in order.
    pub fn rows(&self) -> impl Iterator<Item = Row> + use<'a> {
        self.rows.iter().map(Row::from)
    }

    /// Returns the references of a row.
    pub fn refs(&self, row: &Row) -> &'a [u64] {
        &self.refs[row.first as usize..][..row.count as usize]
    }

    /// Returns the name of a row, empty if it has none.
    pub fn name(&self, row: &Row) -> &'a [u8] {
        &self.names[row.name_place as usize..][..row.name_length as usize]
    }

    /// Returns the VM string, empty if there is none.
    pub fn vm(&self) -> &'a [u8] {
        self.header
            .vm
            .clone()
            .map_or(&[], |range| &self.names[range])
    }

    /// Returns whether a row is good. That its `first` follows from the rows before it is not checked here.
    fn is_good(&self, row: &Row) -> bool {
        let max = self.header.max_number();
        row.address.is_multiple_of(4)
            && row.address <= max
            && row.class <= max
            && self.is_hash_good(row)
            && self.are_refs_good(row)
            && match row.kind {
                CLASS => row.size <= COUNT_LIMIT && row.length == 0 && self.is_name_good(row),
                OBJECT => row.size == 0 && row.length == 0,
                OBJECT_ARRAY => is_array_good(row) && row.length >= row.count,
                PRIMITIVE_ARRAY => is_array_good(row) && row.class == 0 && row.count == 0,
                _ => false,
            }
            && (row.kind == CLASS || (row.name_place == 0 && row.name_length == 0))
            && row.primitive < if row.kind == PRIMITIVE_ARRAY { 8 } else { 1 }
    }

    /// Returns whether a row's hash can be written in this dump.
    fn is_hash_good(&self, row: &Row) -> bool {
        match row.hash_kind {
            NO_HASH => !self.header.all_hashed && row.hash == 0,
            HASHED => !self.header.all_hashed && row.hash == 0 && row.kind != CLASS,
            INT_HASH => !self.header.all_hashed && row.hash <= u64::from(u32::MAX),
            SHORT_HASH => self.header.all_hashed && row.hash <= u64::from(u16::MAX),
            _ => false,
        }
    }

    /// Returns whether a row's references are all in the table and each can be written.
    fn are_refs_good(&self, row: &Row) -> bool {
        let max = self.header.max_number();
        range(row.first, row.count, self.refs.len()).is_some_and(|range| {
            self.refs[range]
                .iter()
                .all(|&to| to != 0 && to.is_multiple_of(4) && to <= max)
        })
    }

    /// Returns whether the name of a class row is in the name bytes and is a class name.
    fn is_name_good(&self, row: &Row) -> bool {
        (1..=u64::from(u16::MAX)).contains(&row.name_length)
            && range(row.name_place, row.name_length, self.names.len())
                .is_some_and(|range| is_class_name(&self.names[range]))
    }
}

/// Returns whether an array's size and length can be written.
fn is_array_good(row: &Row) -> bool {
    row.size <= u64::from(u32::MAX) && row.length <= COUNT_LIMIT
}
