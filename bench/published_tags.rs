// Prints the 64 published tags of SipHash-2-4 as Rust's own SipHasher makes them: under the key 0 to 15, of the messages of the
// bytes 0, 1, 2 and so on, with none of them first and 63 last.
//     rustc --edition 2024 -o /tmp/published_tags bench/published_tags.rs && /tmp/published_tags
#![allow(deprecated)]
use std::hash::{Hasher, SipHasher};

fn main() {
    let bytes: Vec<u8> = (0..64).collect();
    let half = |at: usize| u64::from_le_bytes(bytes[at..at + 8].try_into().unwrap());
    for length in 0..64 {
        let mut hasher = SipHasher::new_with_keys(half(0), half(8));
        hasher.write(&bytes[..length]);
        println!("{:016x}", hasher.finish());
    }
}
