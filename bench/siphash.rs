// SipHash-2-4, ours beside Rust's own: the same keys and messages in one process, compared first and then timed.
// bench/run builds and runs it.
#![allow(deprecated)]
use std::hash::{Hasher, SipHasher};
use std::hint::black_box;
use std::time::Instant;

unsafe extern "C" {
    #[link_name = "siphash"]
    fn exported_siphash(key: *const [u8; 16], message: *const u8, length: usize) -> u64;
}

fn ours(key: &[u8; 16], message: &[u8]) -> u64 {
    unsafe { exported_siphash(key, message.as_ptr(), message.len()) }
}

fn rusts(key: &[u8; 16], message: &[u8]) -> u64 {
    let half = |at: usize| u64::from_le_bytes(key[at..at + 8].try_into().unwrap());
    let mut hasher = SipHasher::new_with_keys(half(0), half(8));
    hasher.write(message);
    hasher.finish()
}

// Nanoseconds for one call, the least of many rounds.
fn nanoseconds(hash: fn(&[u8; 16], &[u8]) -> u64, key: &[u8; 16], message: &[u8], calls: u32) -> f64 {
    let start = Instant::now();
    for _ in 0..calls {
        black_box(hash(black_box(key), black_box(message)));
    }
    start.elapsed().as_nanos() as f64 / f64::from(calls)
}

// A generator for keys and messages (xorshift), so that each run has the same ones.
struct Numbers(u64);

impl Numbers {
    fn next(&mut self) -> u64 {
        self.0 ^= self.0 << 13;
        self.0 ^= self.0 >> 7;
        self.0 ^= self.0 << 17;
        self.0
    }

    fn bytes(&mut self, count: usize) -> Vec<u8> {
        (0..count).map(|_| (self.next() >> 32) as u8).collect()
    }
}

fn compare(numbers: &mut Numbers, cases: u32) {
    for _ in 0..cases {
        let key: [u8; 16] = numbers.bytes(16).try_into().unwrap();
        let length = (numbers.next() % 1100) as usize;
        let message = numbers.bytes(length);
        assert_eq!(ours(&key, &message), rusts(&key, &message), "{length} bytes");
    }
    println!("{cases} random keys and messages of 0 to 1099 bytes: the same tags");
}

fn time(numbers: &mut Numbers, length: usize, calls: u32) {
    let key: [u8; 16] = numbers.bytes(16).try_into().unwrap();
    let message = numbers.bytes(length);
    let rounds = 200;
    let (mut our_least, mut rust_least) = (f64::MAX, f64::MAX);
    for _ in 0..rounds {
        our_least = our_least.min(nanoseconds(ours, &key, &message, calls));
        rust_least = rust_least.min(nanoseconds(rusts, &key, &message, calls));
    }
    println!(
        "{length:>5} bytes: ours {our_least:.2} ns, Rust's {rust_least:.2} ns, ratio {:.2} (least of {rounds} rounds of {calls} calls)",
        our_least / rust_least
    );
}

fn main() {
    let mut numbers = Numbers(0x9e37_79b9_7f4a_7c15);
    compare(&mut numbers, 100_000);
    time(&mut numbers, 9, 100_000);
    time(&mut numbers, 1024, 2_000);
}
