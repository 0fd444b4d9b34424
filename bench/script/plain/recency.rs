//! In which order blocks were written last, and the first in that order of those that are mirrored.

use crate::bits::Marks;
use crate::stop::{Stop, reserve_exact, table};

/// Each write has a turn. A block's turn is that of its last write; those without one come first, by number.
pub struct Recency {
    turns: Vec<u32>,
    /// The blocks by turn, also where the block was written once more.
    blocks: Vec<u32>,
    /// So many turns there are, and then those that count are moved together.
    most: usize,
    /// The turns of blocks that are mirrored.
    mirrored: Marks,
}

impl Recency {
    pub fn new(blocks: u32) -> Result<Recency, Stop> {
        let most = (4 * blocks as usize).next_multiple_of(4096);
        let mut recency = Recency { turns: table(blocks as usize, 0)?, blocks: Vec::new(), most, mirrored: Marks::new(most)? };
        reserve_exact(&mut recency.blocks, most)?;
        recency.begin();
        Ok(recency)
    }

    /// No write is noted, and no block is mirrored.
    pub fn begin(&mut self) {
        let count = self.turns.len() as u32;
        self.mirrored.clear();
        self.blocks.clear();
        self.blocks.extend(0..count);
        self.turns.copy_from_slice(&self.blocks);
    }

    /// A block is written, into a mirrored slot.
    #[inline]
    pub fn wrote(&mut self, block: u32) {
        if self.blocks.len() == self.most {
            self.gather();
        }
        let turn = &mut self.turns[block as usize];
        self.mirrored.remove(*turn);
        *turn = self.blocks.len() as u32;
        self.mirrored.insert(*turn);
        self.blocks.push(block);
    }

    /// A block is moved, and keeps its turn.
    #[inline]
    pub fn moved(&mut self, block: u32, is_mirrored: bool) {
        let turn = self.turns[block as usize];
        if is_mirrored { self.mirrored.insert(turn) } else { self.mirrored.remove(turn) }
    }

    pub fn oldest(&self) -> Option<u32> {
        Some(self.blocks[self.mirrored.first()? as usize])
    }

    // Turns that count move down to the front, in their order.
    #[cold]
    fn gather(&mut self) {
        let mut next = 0;
        for turn in 0..self.blocks.len() as u32 {
            let block = self.blocks[turn as usize];
            if self.turns[block as usize] != turn {
                continue;
            }
            if self.mirrored.has(turn) {
                self.mirrored.remove(turn);
                self.mirrored.insert(next);
            }
            self.turns[block as usize] = next;
            self.blocks[next as usize] = block;
            next += 1;
        }
        self.blocks.truncate(next as usize);
    }
}
