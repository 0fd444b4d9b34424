//! The same loops over std's B-tree, to be timed beside the proved program.
use std::collections::btree_map::Entry;
use std::collections::BTreeMap;
use std::io::{self, BufRead};

const BLOCKS: u32 = 65_536;
const FILLS: u32 = 5;
const COPIES: u32 = 200;
const RAISES: u32 = 15;
const WALKS: u32 = 1_000;
const LISTS: u32 = 600;
const TAKES: u32 = 1_000_000;
const SCATTERED: u32 = 40_503;
const LEAST_KEY: u64 = 1 << 32;

#[derive(Clone, Copy)]
struct Record {
    block: u32,
    version: u32,
    #[allow(dead_code)]
    hop: u16,
    place: u16,
}

impl Record {
    fn key(&self) -> u64 {
        (u64::from(self.version) << 32) + (u64::from(self.hop) << 16) + u64::from(self.place)
    }

    fn of_key(block: u32, key: u64) -> Option<Record> {
        (key >= LEAST_KEY).then_some(Record {
            block,
            version: (key >> 32) as u32,
            hop: (key >> 16) as u16,
            place: key as u16,
        })
    }
}

#[derive(Clone, Default)]
struct BlockMap {
    keys: BTreeMap<u32, u64>,
}

impl BlockMap {
    fn get(&self, block: u32) -> Option<Record> {
        Record::of_key(block, *self.keys.get(&block)?)
    }

    fn take(&mut self, record: Record) {
        self.raise(record.block, record.key());
    }

    fn raise(&mut self, block: u32, key: u64) {
        match self.keys.entry(block) {
            Entry::Occupied(mut entry) => {
                let had = entry.get_mut();
                *had = key.max(*had);
            }
            Entry::Vacant(entry) => {
                entry.insert(key);
            }
        }
    }

    fn merge(&mut self, other: &BlockMap) {
        if self.keys.is_empty() {
            self.keys = other.keys.clone();
            return;
        }
        for (block, key) in &other.keys {
            self.raise(*block, *key);
        }
    }

    fn agrees(&self, other: &BlockMap) -> bool {
        self.keys == other.keys
    }

    fn covers(&self, other: &BlockMap) -> bool {
        let mut ours = self.keys.iter();
        other.keys.iter().all(|(block, theirs)| {
            ours.find(|(here, _)| *here >= block)
                .is_some_and(|(here, key)| here == block && key >= theirs)
        })
    }

    fn lowest_difference(&self, other: &BlockMap) -> Option<u32> {
        let mut theirs = other.keys.iter();
        for (block, key) in &self.keys {
            let Some((their_block, their_key)) = theirs.next() else {
                return Some(*block);
            };
            if block != their_block || key != their_key {
                return Some(*block.min(their_block));
            }
        }
        theirs.next().map(|(block, _)| *block)
    }

    fn to_list(&self) -> Vec<Record> {
        let mut list = Vec::with_capacity(self.keys.len());
        list.extend(
            self.keys
                .iter()
                .filter_map(|(block, key)| Record::of_key(*block, *key)),
        );
        list
    }
}

fn record_at(round: u32, step: u32) -> Record {
    Record {
        block: (u64::from(round) * u64::from(step) % u64::from(BLOCKS)) as u32,
        version: round / BLOCKS + 1,
        hop: 0,
        place: (round % 0x1_0000) as u16,
    }
}

fn taken(rounds: u32, step: u32) -> BlockMap {
    let mut map = BlockMap::default();
    for round in 0..rounds {
        map.take(record_at(round, step));
    }
    map
}

// A map of all blocks, each newer by as many versions as the age says.
fn full(age: u32) -> BlockMap {
    let mut map = BlockMap::default();
    for block in 0..BLOCKS {
        map.take(record_at(age * BLOCKS + block, SCATTERED));
    }
    map
}

fn place_in(map: &BlockMap, block: u32) -> u64 {
    map.get(block).map_or(0, |record| {
        u64::from(record.version) + u64::from(record.place)
    })
}

fn takes(step: u32) -> u64 {
    (0..FILLS)
        .map(|fill| place_in(&taken(TAKES, step), fill))
        .sum()
}

fn merges_into_empty() -> u64 {
    let other = full(0);
    let merged = |merge| {
        let mut map = BlockMap::default();
        map.merge(&other);
        place_in(&map, merge)
    };
    (0..COPIES).map(merged).sum()
}

fn merges_into_full() -> u64 {
    let old = full(0);
    let newer = [full(1), full(2), full(3), full(4)];
    let raised = |raise| {
        let mut map = old.clone();
        newer.iter().for_each(|other| map.merge(other));
        place_in(&map, raise)
    };
    (0..RAISES).map(raised).sum()
}

// Before each look an old record is taken, so that no two are of the same value for a compiler.
fn looks(holds: impl Fn(&BlockMap, &BlockMap) -> bool) -> u64 {
    let mut map = full(0);
    let other = full(0);
    let mut sum = 0;
    for look in 0..WALKS {
        map.take(record_at(look, SCATTERED));
        sum += u64::from(holds(&map, &other));
    }
    sum
}

fn lists() -> u64 {
    let map = full(0);
    (0..LISTS)
        .map(|list| u64::from(map.to_list()[list as usize].place))
        .sum()
}

fn main() {
    for line in io::stdin().lock().lines() {
        let line = line.unwrap();
        let sum = match line.as_str() {
            "take rising" => takes(1),
            "take scattered" => takes(SCATTERED),
            "merge into empty" => merges_into_empty(),
            "merge into full" => merges_into_full(),
            "agrees" => looks(BlockMap::agrees),
            "covers" => looks(BlockMap::covers),
            "lowest_difference" => looks(|map, other| map.lowest_difference(other).is_none()),
            "to_list" => lists(),
            _ => panic!("{line}"),
        };
        println!("{line} {sum}");
    }
}
