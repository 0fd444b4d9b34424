//! Joins the records of two controllers, decodes headers, places slots and runs a script; then compares a join of many records
//! with a `BTreeMap`.
mod behkuna;
mod heap;

use behkuna::{difference, has_this_version, join, newest, one_stripe, run_script, slot_count, two_copies, xor_into, Header, Record, Status};
use std::collections::BTreeMap;

const RECORD: usize = 12;

fn record(block: u32, version: u32, hop: u16, place: u16) -> Record {
    Record { block, version, hop, place }
}

fn list_of(records: &[Record]) -> Result<Vec<u8>, Status> {
    let mut list = Vec::new();
    for record in records {
        list.extend(record.encode()?);
    }
    Ok(list)
}

fn join_two_controllers() -> Result<(), Status> {
    let ours = list_of(&[record(3, 1, 0, 0), record(1, 1, 0, 0), record(3, 2, 0, 5)])?;
    let theirs = list_of(&[record(3, 1, 1, 128), record(2, 1, 0, 1), record(1, 1, 0, 0)])?;
    let both = [ours.as_slice(), theirs.as_slice()].concat();
    let joined = join(&both)?;
    for bytes in joined.chunks(RECORD) {
        let newest = Record::decode(bytes)?;
        println!("{newest:?} key {}", newest.key());
    }
    println!("part {:?}, join {:?}", difference(&ours, &both)?, difference(&both, &joined)?);
    println!("block 3 {:?}, block 4 {:?}", newest(&both, 3)?, newest(&both, 4)?);
    println!("71 bytes {:?}, version 0 {:?}", join(&both[..71]), join(&[0; RECORD]));
    println!("{:?} {:?}", Record::of_key(3, 8_589_934_597)?, Record::of_key(3, 4_294_967_295));
    Ok(())
}

fn decode_headers() -> Result<(), Status> {
    let mut layout_1 = [0; 32];
    layout_1[..12].copy_from_slice(b"RBH1\0\0\0\x03\0\0\0\x01");
    let mut layout_2 = [0; 32];
    layout_2[..17].copy_from_slice(b"RBH2\0\0\0\x03\0\0\0\x02\0\0\0\x05\x01");
    for bytes in [layout_1, layout_2, [0; 32]] {
        println!("{:?}", Header::decode(&bytes)?);
    }
    println!("layout 2 again {}", Header::decode(&layout_2)?.encode()? == layout_2);
    layout_1[20] = 1;
    println!("byte 20 set {:?}", Header::decode(&layout_1));
    Ok(())
}

fn place_slots() -> Result<(), Status> {
    println!("{} mirrored slots, slot 2: {:?}", slot_count(false, 3, 2)?, two_copies(3, 2, 2)?);
    println!("{} parity slots, slot 5: {:?}", slot_count(true, 3, 2)?, one_stripe(3, 2, 5)?);
    println!("slot 6 {:?}", two_copies(3, 2, 6));
    let mut bytes = [0x12, 0x34];
    xor_into(&mut bytes, &[0xff, 0x0f])?;
    println!("exclusive or {bytes:x?}");
    Ok(())
}

fn run_scripts() -> Result<(), Status> {
    let write = "array 4 8 2 8 16\nmake m 0.0 1.0 2.0\nclaim 0 0\nfill 0 0 1122334455667788\ncommit 0 0 3\nread 3\n";
    for script in [write, "array 4 8 2 8 16\nread 16\n"] {
        let (answers, is_fault) = run_script(script.as_bytes())?;
        print!("fault {is_fault}\n{}", String::from_utf8_lossy(&answers));
    }
    Ok(())
}

/// Pseudo-random numbers (xorshift).
struct Random(u64);

impl Random {
    fn below(&mut self, end: u64) -> u64 {
        self.0 ^= self.0 << 13;
        self.0 ^= self.0 >> 7;
        self.0 ^= self.0 << 17;
        self.0 % end
    }
}

fn join_many() -> Result<(), Status> {
    let mut random = Random(1);
    let mut wanted = BTreeMap::new();
    let mut list = Vec::new();
    for _ in 0..20_000 {
        let one = record(
            random.below(1_000) as u32,
            1 + random.below(7) as u32,
            random.below(3) as u16,
            random.below(65_536) as u16,
        );
        list.extend(one.encode()?);
        let kept = wanted.entry(one.block).or_insert(one);
        if (one.version, one.hop, one.place) > (kept.version, kept.hop, kept.place) {
            *kept = one;
        }
    }
    let wanted: Vec<Record> = wanted.into_values().collect();
    println!("20000 records as a BTreeMap {}", join(&list)? == list_of(&wanted)?);
    Ok(())
}

fn main() -> Result<(), Status> {
    println!("the archive has this version {}", has_this_version());
    join_two_controllers()?;
    decode_headers()?;
    place_slots()?;
    run_scripts()?;
    join_many()
}
