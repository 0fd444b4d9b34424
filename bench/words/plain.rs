// The same loops over plain atomics, to be timed beside the proved program.
use std::io::BufRead;
use std::sync::atomic::{AtomicU64, Ordering::SeqCst};

const CLAIMS: u32 = 20_000_000;
const TAKES: u32 = 20_000_000;
const FINDS: u32 = 200_000_000;
const BLOCKS: u32 = 1024;
const SPENT: u64 = 1 << 63;

fn words(count: usize) -> Vec<AtomicU64> {
    (0..count).map(|_| AtomicU64::new(0)).collect()
}

enum Refusal {
    Taken(#[allow(dead_code)] u64),
    Spent,
    Moved(#[allow(dead_code)] u64),
}

struct Claim {
    slot: u16,
    generation: u64,
}

fn claim(words: &[AtomicU64], slot: u16) -> Result<Claim, Refusal> {
    let word = &words[slot as usize];
    let seen = word.load(SeqCst);
    if seen % 2 == 1 {
        return Err(Refusal::Taken(seen));
    }
    if seen == SPENT {
        return Err(Refusal::Spent);
    }
    let generation = seen / 2 + 1;
    match word.compare_exchange(seen, 2 * generation + 1, SeqCst, SeqCst) {
        Ok(_) => Ok(Claim { slot, generation }),
        Err(found) if found % 2 == 1 => Err(Refusal::Taken(found)),
        Err(found) => Err(Refusal::Moved(found)),
    }
}

fn release(words: &[AtomicU64], claim: Claim) {
    words[claim.slot as usize].store(2 * claim.generation, SeqCst);
}

fn churn(words: &[AtomicU64], step: u8, rounds: u32) {
    for round in 0..rounds {
        let slot = (round as u64 * step as u64 % 64) as u16;
        if let Ok(claim) = claim(words, slot) {
            release(words, claim);
        }
    }
}

struct Record {
    block: u32,
    version: u32,
    hop: u16,
    place: u16,
}

fn take(words: &[AtomicU64], record: &Record) -> u64 {
    let key = ((record.version as u64) << 32) + ((record.hop as u64) << 16) + record.place as u64;
    words[record.block as usize].fetch_max(key, SeqCst)
}

fn find(words: &[AtomicU64], block: u32) -> Option<Record> {
    let key = words[block as usize].load(SeqCst);
    if key < 1 << 32 {
        return None;
    }
    Some(Record {
        block,
        version: (key >> 32) as u32,
        hop: (key >> 16) as u16,
        place: key as u16,
    })
}

fn block_at(round: u32, step: u8) -> u32 {
    (round as u64 * step as u64 % 1024) as u32
}

fn take_each(words: &[AtomicU64], step: u8, rounds: u32) {
    for round in 0..rounds {
        let record = Record {
            block: block_at(round, step),
            version: round / BLOCKS + 1,
            hop: 0,
            place: (round % 0x1_0000) as u16,
        };
        take(words, &record);
    }
}

fn find_each(words: &[AtomicU64], step: u8, rounds: u32) -> u64 {
    let mut sum = 0u64;
    for round in 0..rounds {
        if let Some(record) = find(words, block_at(round, step)) {
            sum = sum.wrapping_add(record.version as u64);
        }
    }
    sum
}

fn in_four(run: impl Fn(u8) -> u64 + Sync) -> u64 {
    std::thread::scope(|scope| {
        let run = &run;
        let threads: Vec<_> = [1, 3, 5, 7].map(|step| scope.spawn(move || run(step))).into();
        threads.into_iter().map(|thread| thread.join().unwrap()).sum()
    })
}

fn main() {
    for line in std::io::stdin().lock().lines() {
        let line = line.unwrap();
        let slots = words(64);
        let blocks = words(BLOCKS as usize);
        take_each(&blocks, 1, BLOCKS);
        let sum = match line.as_str() {
            "claims 1" => {
                churn(&slots, 1, CLAIMS);
                0
            }
            "claims 4" => in_four(|step| {
                churn(&slots, step, CLAIMS / 4);
                0
            }),
            "takes 1" => {
                take_each(&blocks, 1, TAKES);
                0
            }
            "takes 4" => in_four(|step| {
                take_each(&blocks, step, TAKES / 4);
                0
            }),
            "finds 1" => find_each(&blocks, 1, FINDS),
            "finds 4" => in_four(|step| find_each(&blocks, step, FINDS / 4)),
            _ => panic!("{line}"),
        };
        println!("{line} {sum}");
    }
}
