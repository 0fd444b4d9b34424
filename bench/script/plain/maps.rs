//! The four maps of a script, beside the array: tables of keys by block.

use crate::record::Record;
use crate::scan::records;
use crate::stop::{Stop, Told, table};

pub struct Maps {
    pub blocks: u32,
    /// A map has its table from its first record on.
    tables: [Vec<u64>; 4],
    counts: [usize; 4],
}

impl Maps {
    pub fn new(blocks: u32) -> Maps {
        Maps { blocks, tables: Default::default(), counts: [0; 4] }
    }

    fn lay_out(&mut self, map: usize) -> Told {
        if self.tables[map].is_empty() {
            self.tables[map] = table(self.blocks as usize, 0)?;
        }
        Ok(())
    }

    /// Takes a record, and gives the map's record of that block.
    pub fn take(&mut self, map: usize, record: Record) -> Result<Record, Stop> {
        self.lay_out(map)?;
        let key = &mut self.tables[map][record.block as usize];
        self.counts[map] += usize::from(*key == 0);
        *key = record.key().max(*key);
        Ok(Record::of_key(record.block, *key).unwrap_or(record))
    }

    pub fn merge(&mut self, map: usize, other: usize) -> Told {
        if map == other || self.tables[other].is_empty() {
            return Ok(());
        }
        self.lay_out(map)?;
        let [keys, others] = self.tables.get_disjoint_mut([map, other]).expect("two maps");
        let mut count = 0;
        for (key, other) in keys.iter_mut().zip(others) {
            *key = (*key).max(*other);
            count += usize::from(*key > 0);
        }
        self.counts[map] = count;
        Ok(())
    }

    /// The lowest block of which the maps have not the same.
    pub fn first_difference(&self, map: usize, other: usize) -> Option<usize> {
        match (&self.tables[map][..], &self.tables[other][..]) {
            ([], keys) | (keys, []) => keys.iter().position(|key| *key > 0),
            (keys, others) => keys.iter().zip(others).position(|(key, other)| key != other),
        }
    }

    pub fn count(&self, map: usize) -> usize {
        self.counts[map]
    }

    pub fn records(&self, map: usize) -> impl Iterator<Item = Record> {
        records(&self.tables[map])
    }
}
