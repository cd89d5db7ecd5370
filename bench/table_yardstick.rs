//! A yardstick for the shared table: the same adds into a plain table of atomic words, with the same probing, as an
//! expert would write it for just this purpose, with std alone and nothing proved. It counts no debts. With pairs, a cell has
//! two words: the first is exchanged from 0 to the high code and 1, then the second from 0 to the low code and 1.
//!
//! Build it with `rustc -O`. Usage: table_yardstick SEATS CODES, SEATS being 0 (nothing is added), 1 or 4; or `pairs` or
//! `no-pairs` in place of SEATS.

use std::sync::atomic::{AtomicU64, Ordering::SeqCst};

/// What became of a code.
enum Added {
    New,
    Old,
    Full,
}

struct Table {
    cells: u64,
    words: Vec<AtomicU64>,
}

impl Table {
    fn new(cells: u64) -> Table {
        // As many words as the shared table has: one for debts, one a cell, two arrows a cell.
        let words = 1 + cells + cells * 2;
        Table { cells, words: (0..words).map(|_| AtomicU64::new(0)).collect() }
    }

    fn home(&self, code: u64) -> u64 {
        (code.wrapping_mul(11_400_714_819_323_198_485) >> 32) % self.cells
    }

    fn add(&self, code: u64) -> Added {
        let mut cell = self.home(code);
        for _ in 0..self.cells {
            let word = &self.words[1 + cell as usize];
            let mut found = word.load(SeqCst);
            if found == 0 {
                match word.compare_exchange(0, code + 1, SeqCst, SeqCst) {
                    Ok(_) => return Added::New,
                    Err(other) => found = other,
                }
            }
            if found == code + 1 {
                return Added::Old;
            }
            cell = if cell + 1 == self.cells { 0 } else { cell + 1 };
        }
        Added::Full
    }
}

fn add_all(table: &Table, codes: &[u64]) -> u32 {
    let mut fresh = 0;
    for code in codes {
        if let Added::New = table.add(*code) {
            fresh += 1;
        }
    }
    fresh
}

/// A table of pairs, with as many cells and words as a wide graph of this capacity has.
struct PairTable {
    cells: u64,
    words: Vec<AtomicU64>,
}

impl PairTable {
    fn new(capacity: u64) -> PairTable {
        let cells = capacity + 32;
        PairTable { cells, words: (0..1 + 2 * cells + 2 * cells).map(|_| AtomicU64::new(0)).collect() }
    }

    fn add(&self, high: u64, low: u64) -> Added {
        let mixed = high.wrapping_add(low.wrapping_mul(3));
        let mut cell = (mixed.wrapping_mul(11_400_714_819_323_198_485) >> 32) % self.cells;
        for _ in 0..self.cells {
            let (first, second) = (&self.words[1 + 2 * cell as usize], &self.words[2 + 2 * cell as usize]);
            let found = match first.compare_exchange(0, high + 1, SeqCst, SeqCst) {
                Ok(_) => high + 1,
                Err(other) => other,
            };
            if found == high + 1 {
                match second.compare_exchange(0, low + 1, SeqCst, SeqCst) {
                    Ok(_) => return Added::New,
                    Err(other) if other == low + 1 => return Added::Old,
                    Err(_) => (),
                }
            }
            cell = if cell + 1 == self.cells { 0 } else { cell + 1 };
        }
        Added::Full
    }
}

/// Adds pairs with the same code in both halves.
fn add_pairs(table: &PairTable, pairs: &[(u64, u64)]) -> usize {
    pairs.iter().filter(|(high, low)| matches!(table.add(*high, *low), Added::New)).count()
}

fn main() {
    if let [how, count] = &std::env::args().skip(1).collect::<Vec<String>>()[..] {
        if let ("pairs" | "no-pairs", Ok(count)) = (how.as_str(), count.parse::<u64>()) {
            let pairs: Vec<(u64, u64)> = (0..count).map(|code| (code, code)).collect();
            let table = PairTable::new(count);
            println!("new {}", if how == "pairs" { add_pairs(&table, &pairs) } else { 0 });
            return;
        }
    }
    let arguments: Vec<u64> = std::env::args().skip(1).filter_map(|text| text.parse().ok()).collect();
    let [seats, count] = arguments[..] else {
        eprintln!("usage: table_yardstick SEATS CODES");
        std::process::exit(2);
    };
    let codes: Vec<u64> = (0..count).collect();
    let table = Table::new(count);
    let fresh = match seats {
        0 => 0,
        1 => add_all(&table, &codes),
        _ => std::thread::scope(|scope| {
            let part = codes.len().div_ceil(seats as usize);
            let threads: Vec<_> = codes.chunks(part).map(|part| scope.spawn(|| add_all(&table, part))).collect();
            threads.into_iter().map(|thread| thread.join().unwrap()).sum()
        }),
    };
    println!("new {fresh}");
}
