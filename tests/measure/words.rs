// The operations on shared words in plain Rust, each made many times; words.py builds, runs and times it.
//
// usage: words OPERATION TIMES
//
// The words are laid out as those of the page table: the newest version, an announcement for the one sampler, four banks of 5 entries, and
// the texels of 3 frames. Each access is sequentially consistent. It prints a number that depends on all that was read.
use std::env;
use std::hint::black_box;
use std::sync::atomic::{AtomicU64, Ordering::SeqCst};

const PAGES: usize = 5;
const FRAMES: usize = 3;
const ENTRIES: usize = 2;

/// The words, and what the one who writes them keeps beside: the changes, of each page its entry, of each frame its page and the version that
/// unmapped it, and the sampler's floor.
struct Table {
    words: Vec<AtomicU64>,
    texels: usize,
    changes: Vec<(u32, u32, u32)>,
    entries: Vec<u32>,
    owners: Vec<u32>,
    unmapped: Vec<u64>,
    floor: u64,
}

impl Table {
    fn new(side: usize) -> Table {
        let count = ENTRIES + 4 * PAGES + FRAMES * side * side;
        Table {
            words: (0..count).map(|_| AtomicU64::new(0)).collect(),
            texels: side * side,
            changes: Vec::new(),
            entries: vec![0; PAGES],
            owners: vec![0; FRAMES],
            unmapped: vec![0; FRAMES],
            floor: 0,
        }
    }

    fn first_texel(&self, frame: usize) -> usize {
        ENTRIES + 4 * PAGES + frame * self.texels
    }

    /// Stores the texels of a tile of one-byte or two-byte samples.
    fn fill(&mut self, frame: usize, page: u32, tile: &[u8]) {
        let first = self.first_texel(frame);
        let words = &self.words[first..first + self.texels];
        if tile.len() == 3 * self.texels {
            for (word, texel) in words.iter().zip(tile.chunks_exact(3)) {
                word.store(number(&texel[..3]), SeqCst);
            }
        } else {
            for (word, texel) in words.iter().zip(tile.chunks_exact(6)) {
                word.store(number(&texel[..6]), SeqCst);
            }
        }
        self.owners[frame] = page + 1;
    }

    /// Looks at the sampler where its floor is below a version.
    fn reach(&mut self, least: u64) -> bool {
        if self.floor < least {
            let word = self.words[1].load(SeqCst);
            self.floor = if word == 0 { self.changes.len() as u64 } else { self.floor.max(word - 1) };
        }
        self.floor >= least
    }

    fn enter(&self, change: (u32, u32, u32), version: usize) {
        let entry = if change.0 == 0 { u64::from(change.2) + 1 } else { 0 };
        self.words[ENTRIES + version % 4 * PAGES + change.1 as usize].store(entry, SeqCst);
    }

    /// Stores at most four entries and the version.
    fn publish(&mut self, change: (u32, u32, u32)) -> bool {
        let version = self.changes.len();
        if !self.reach((version as u64).saturating_sub(2)) {
            return false;
        }
        for &old in &self.changes[version.saturating_sub(3)..] {
            self.enter(old, version + 1);
        }
        self.enter(change, version + 1);
        self.words[0].store(version as u64 + 1, SeqCst);
        self.changes.push(change);
        let (page, frame) = (change.1 as usize, change.2 as usize);
        if change.0 == 0 {
            self.entries[page] = change.2 + 1;
        } else {
            self.entries[page] = 0;
            self.owners[frame] = 0;
            self.unmapped[frame] = version as u64 + 1;
        }
        true
    }

    /// Maps a page to a frame, with a tile that is filled in, after a look whether both are free.
    fn map(&mut self, page: u32, frame: u32, tile: &[u8]) -> bool {
        self.entries.iter().all(|&entry| entry != frame + 1)
            && self.entries[page as usize] == 0
            && self.reach(self.unmapped[frame as usize])
            && {
                self.fill(frame as usize, page, tile);
                self.publish((0, page, frame))
            }
    }

    fn unmap(&mut self, page: u32, frame: u32) -> bool {
        self.entries[page as usize] == frame + 1 && self.publish((1, page, frame))
    }
}

/// The samples of a texel in one number, the most significant byte first.
fn number(texel: &[u8]) -> u64 {
    texel.iter().fold(0, |number, &byte| number << 8 | u64::from(byte))
}

fn hold(table: &Table, times: u64) -> u64 {
    let words = &table.words[..];
    let mut sum: u64 = 0;
    for _ in 0..times {
        let hint = words[0].load(SeqCst);
        words[1].store(hint + 1, SeqCst);
        sum = sum.wrapping_add(words[0].load(SeqCst));
        words[1].store(0, SeqCst);
    }
    sum
}

/// The sum of loads of a run of words, whose length is a power of two, one after the other.
fn load(words: &[AtomicU64], first: usize, length: u64, times: u64) -> u64 {
    let mut sum: u64 = 0;
    for time in 0..times {
        sum = sum.wrapping_add(words[first + (time % length) as usize].load(SeqCst));
    }
    sum
}

fn store(table: &Table, times: u64) -> u64 {
    for time in 0..times {
        table.words[0].store(time, SeqCst);
    }
    table.words[0].load(SeqCst)
}

fn fill(bytes: usize, times: u64) -> u64 {
    let mut table = Table::new(64);
    let mut tile = vec![1; bytes];
    tile[bytes - 1] = 2;
    for _ in 0..times {
        table.fill(black_box(1), 0, black_box(&tile));
    }
    load(&table.words, table.first_texel(1), 4096, 4096)
}

/// Maps and unmaps the pages 0 to 3 in turn, a thousand times on each table.
fn play(tables: u64) -> u64 {
    let tile = [1, 2, 3, 4, 5, 6, 7, 8, 9, 10, 11, 12];
    for _ in 0..tables {
        let mut table = Table::new(2);
        for round in 0..1000 {
            let (page, frame) = (round % 4, 1 + round % 2);
            assert!(table.map(page, frame, &tile) && table.unmap(page, frame));
        }
        assert!(table.words[0].load(SeqCst) == 2000);
    }
    tables
}

fn main() {
    let words: Vec<String> = env::args().collect();
    let times = words[2].parse().unwrap();
    let mut table = Table::new(64);
    table.map(0, 1, &[1; 12288]);
    let answer = match words[1].as_str() {
        "stores" => store(&table, times),
        "holds" => hold(&table, times),
        "entries" => load(&table.words, ENTRIES + PAGES, 4, times),
        "words" => load(&table.words, table.first_texel(1), 4096, times),
        "narrow_fills" => fill(12288, times),
        "wide_fills" => fill(24576, times),
        "rounds" => play(times),
        _ => panic!("no such operation"),
    };
    println!("{answer}");
}
