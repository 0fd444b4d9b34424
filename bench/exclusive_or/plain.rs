//! The same loops in plain Rust.
use std::hint::black_box;
use std::io::{self, BufRead};

#[inline(never)]
fn xor_into(into: &mut [u8], from: &[u8]) {
    for (byte, other) in into.iter_mut().zip(from) {
        *byte ^= *other;
    }
}

fn many(size: usize, times: u32) -> u8 {
    let mut into = black_box(vec![1u8; size]);
    let mut from = black_box(vec![3u8; size]);
    let mut seen = 0;
    for time in 0..times {
        if into.len() == from.len() && into.len() > 50 {
            xor_into(&mut into, &from);
            from[50] = (time % 251) as u8;
            seen ^= into[50];
        }
    }
    seen
}

fn main() {
    for line in io::stdin().lock().lines() {
        let line = line.unwrap();
        match line.as_str() {
            "104" => println!("{line} {}", many(104, 200_000_000)),
            "65568" => println!("{line} {}", many(65568, 1_000_000)),
            _ => println!("{line} was not run"),
        }
    }
}
