//! Tile stores of vtex from Rust: the library for C by `extern "C"`, in one file without a package.
//!
//!     rustc -O vtex.rs -L PREFIX/lib -l static=vtex_c
//!     ./vtex STORE LEVEL X Y WIDTH HEIGHT >part.ppm
//!
//! `sh dist/install.sh PREFIX` installs the library. `Store` reads parts of a level; at most
//! `frames` tiles are in memory, and the least recently used one is given up. In a crate of your
//! own, leave out `main` and put the two flags into build.rs.

use std::collections::HashSet;
use std::ffi::c_void;
use std::fmt;
use std::fs::File;
use std::io::{self, Read, Seek, SeekFrom, Write};

/// What a call of the library returns where it did not do what was asked: the statuses of vtex.h.
#[derive(Clone, Copy, Debug, PartialEq, Eq)]
pub struct Status(pub u32);

impl fmt::Display for Status {
    fn fmt(&self, out: &mut fmt::Formatter<'_>) -> fmt::Result {
        out.write_str(match self.0 {
            1 => "the sides or the tile side make no chain of pages",
            2 => "a number is outside its bounds",
            3 => "out of memory",
            4 => "it is closed",
            5 => "the file is no tile store, or a part of one",
            _ => "an unknown status",
        })
    }
}

impl std::error::Error for Status {}

impl From<Status> for io::Error {
    fn from(status: Status) -> io::Error {
        io::Error::new(io::ErrorKind::Other, status)
    }
}

#[repr(C)]
#[derive(Clone, Copy, Default)]
struct Shape {
    width: u32,
    height: u32,
    tile: u32,
}

#[repr(C)]
#[derive(Clone, Copy, Default)]
struct Level {
    width: u32,
    height: u32,
    columns: u32,
    rows: u32,
    first: u32,
}

#[repr(C)]
#[derive(Clone, Copy, Default)]
struct Head {
    shape: Shape,
    depth: u32,
}

#[repr(C)]
#[derive(Clone, Copy, Default)]
struct Extent {
    start: u64,
    length: u64,
}

#[repr(C)]
#[derive(Clone, Copy, Default)]
struct Triple(u32, u32, u32);

// An index with a column and a row, or a level with them.
type Page = (u32, u32, u32);

extern "C" {
    fn vtex_store_open(head: *const u8, count: usize, length: u64, store: *mut Head) -> u32;
    fn vtex_store_tile(store: *const Head, page: u32, range: *mut Extent) -> u32;
    fn vtex_level_count(shape: *const Shape, levels: *mut u32) -> u32;
    fn vtex_level(shape: *const Shape, level: u32, info: *mut Level) -> u32;
    fn vtex_cache_size() -> usize;
    fn vtex_cache_init(at: *mut c_void);
    fn vtex_cache_open(at: *mut c_void, shape: *const Shape, frames: u32, pinned: u32) -> u32;
    fn vtex_cache_pass_pages(at: *mut c_void, list: *const u32, count: usize, most: u32) -> u32;
    fn vtex_cache_loads(at: *mut c_void, out: *mut Triple, room: usize) -> u32;
    fn vtex_cache_settle(at: *mut c_void, states: *const u8, count: usize) -> u32;
    fn vtex_cache_changes(at: *mut c_void, out: *mut Triple, room: usize) -> u32;
    fn vtex_cache_look_up(at: *mut c_void, page: u32, found: *mut Triple) -> u32;
    fn vtex_cache_close(at: *mut c_void) -> u32;
}

fn done(status: u32) -> Result<(), Status> {
    if status == 0 {
        Ok(())
    } else {
        Err(Status(status))
    }
}

// A place for no record, which is not null: with room for 0 records a call returns their number.
fn nothing() -> *mut Triple {
    std::ptr::NonNull::dangling().as_ptr()
}

/// A tile store, of which at most `frames` tiles are in memory. Calls take `&mut self`, so one
/// thread at a time makes them.
pub struct Store {
    file: File,
    head: Head,
    frames: u32,
    // The cache's place: it does not move, since the box does not.
    cache: Box<[u64]>,
    // The tile in each frame, empty where none is.
    tiles: Vec<Vec<u8>>,
}

impl Store {
    /// Opens a store with `frames` frames, from 1 to 65,535. It is an error if the file cannot be
    /// read or is no store.
    pub fn open(name: &str, frames: u32) -> io::Result<Store> {
        let file = File::open(name)?;
        let length = file.metadata()?.len();
        let mut bytes = Vec::new();
        (&file).take(16).read_to_end(&mut bytes)?;
        let mut head = Head::default();
        done(unsafe { vtex_store_open(bytes.as_ptr(), bytes.len(), length, &mut head) })?;
        let mut cache = vec![0; unsafe { vtex_cache_size() } / 8 + 1].into_boxed_slice();
        unsafe { vtex_cache_init(cache.as_mut_ptr().cast()) };
        let mut store = Store {
            file,
            head,
            frames,
            cache,
            tiles: Vec::new(),
        };
        done(unsafe { vtex_cache_open(store.at(), &store.head.shape, frames, 1) })?;
        store.tiles.resize(frames as usize, Vec::new());
        store.upload(&mut Vec::new())?;
        Ok(store)
    }

    /// The texture's width and height in texels.
    pub fn size(&self) -> (u32, u32) {
        (self.head.shape.width, self.head.shape.height)
    }

    /// How many bytes a sample has, 1 or 2, the most significant first.
    pub fn depth(&self) -> u32 {
        self.head.depth
    }

    /// Returns the texels of a part of a level, row by row from the top, three samples each. It is
    /// an error if the part is not inside the level, or if there are fewer frames than levels from
    /// this one to the last.
    pub fn region(
        &mut self,
        level: u32,
        x: u32,
        y: u32,
        width: u32,
        height: u32,
    ) -> io::Result<Vec<u8>> {
        let mut info = Level::default();
        done(unsafe { vtex_level(&self.head.shape, level, &mut info) })?;
        let inside = |from: u32, count: u32, side: u32| {
            from.checked_add(count).is_some_and(|end| end <= side)
        };
        if !inside(x, width, info.width) || !inside(y, height, info.height) {
            return Err(Status(2).into());
        }
        let size = 3 * self.head.depth as usize;
        let mut out = vec![0; size * width as usize * height as usize];
        if out.is_empty() {
            return Ok(out);
        }
        let side = self.head.shape.tile;
        let (columns, rows) = (
            x / side..(x + width - 1) / side + 1,
            y / side..(y + height - 1) / side + 1,
        );
        let pages: Vec<Page> = rows
            .flat_map(|row| {
                columns
                    .clone()
                    .map(move |column| (info.first + row * info.columns + column, column, row))
            })
            .collect();
        for group in self.groups(level, pages)? {
            self.load(&group.iter().map(|page| page.0).collect::<Vec<u32>>())?;
            for (page, column, row) in group {
                let mut found = Triple::default();
                done(unsafe { vtex_cache_look_up(self.at(), page, &mut found) })?;
                if found.0 != page {
                    return Err(Status(2).into());
                }
                let tile = &self.tiles[found.1 as usize];
                let (left, right) = (x.max(column * side), (x + width).min((column + 1) * side));
                for line in y.max(row * side)..(y + height).min((row + 1) * side) {
                    let to = size * ((line - y) as usize * width as usize + (left - x) as usize);
                    let from =
                        size * ((line % side) as usize * side as usize + (left % side) as usize);
                    let count = size * (right - left) as usize;
                    out[to..to + count].copy_from_slice(&tile[from..from + count]);
                }
            }
        }
        Ok(out)
    }

    // Returns the pages of a level in groups that fit into the frames with their ancestors. The
    // cache loads a coarser page over a place before a finer one, and keeps it while the finer one
    // is wanted. The root has a frame of its own.
    fn groups(&self, level: u32, pages: Vec<Page>) -> io::Result<Vec<Vec<Page>>> {
        let mut levels = 0;
        done(unsafe { vtex_level_count(&self.head.shape, &mut levels) })?;
        if levels - level > self.frames {
            return Err(Status(2).into());
        }
        let (mut groups, mut held): (Vec<Vec<Page>>, HashSet<Page>) = (Vec::new(), HashSet::new());
        for (page, column, row) in pages {
            let line = (0..levels - 1 - level).map(|up| (level + up, column >> up, row >> up));
            let more = line.clone().filter(|it| !held.contains(it)).count();
            if groups.is_empty() || held.len() + more >= self.frames as usize {
                groups.push(Vec::new());
                held.clear();
            }
            held.extend(line);
            groups
                .last_mut()
                .expect("there is a group")
                .push((page, column, row));
        }
        Ok(groups)
    }

    fn at(&mut self) -> *mut c_void {
        self.cache.as_mut_ptr().cast()
    }

    fn tile(&mut self, page: u32) -> io::Result<Vec<u8>> {
        let mut extent = Extent::default();
        done(unsafe { vtex_store_tile(&self.head, page, &mut extent) })?;
        let mut tile = vec![0; extent.length as usize];
        self.file.seek(SeekFrom::Start(extent.start))?;
        self.file.read_exact(&mut tile)?;
        Ok(tile)
    }

    // Puts the tiles of the pages that the last settling mapped into their frames: those that were
    // read for it, else from the file.
    fn upload(&mut self, read: &mut Vec<(u32, Vec<u8>)>) -> io::Result<()> {
        let count = unsafe { vtex_cache_changes(self.at(), nothing(), 0) } as usize;
        let mut changes = vec![Triple::default(); count];
        unsafe { vtex_cache_changes(self.at(), changes.as_mut_ptr(), count) };
        for Triple(page, frame, mapped) in changes {
            self.tiles[frame as usize] = match read.iter().position(|it| it.0 == page) {
                _ if mapped == 0 => Vec::new(),
                Some(place) => read.swap_remove(place).1,
                None => self.tile(page)?,
            };
        }
        Ok(())
    }

    // Loads pages until all are in memory. They are one group of `groups`.
    fn load(&mut self, pages: &[u32]) -> io::Result<()> {
        loop {
            done(unsafe { vtex_cache_pass_pages(self.at(), pages.as_ptr(), pages.len(), 64) })?;
            let count = unsafe { vtex_cache_loads(self.at(), nothing(), 0) } as usize;
            if count == 0 {
                return Ok(());
            }
            let mut loads = vec![Triple::default(); count];
            unsafe { vtex_cache_loads(self.at(), loads.as_mut_ptr(), count) };
            let mut read = Vec::new();
            let tiles: Vec<io::Result<Vec<u8>>> =
                loads.iter().map(|load| self.tile(load.0)).collect();
            let states: Vec<u8> = tiles.iter().map(|tile| u8::from(tile.is_err())).collect();
            let mut failure = None;
            for (load, tile) in loads.iter().zip(tiles) {
                match tile {
                    Ok(tile) => read.push((load.0, tile)),
                    Err(error) => failure = Some(error),
                }
            }
            // What was read counts, also where a read failed. The rest is planned again.
            done(unsafe { vtex_cache_settle(self.at(), states.as_ptr(), count) })?;
            self.upload(&mut read)?;
            if let Some(error) = failure {
                return Err(error);
            }
        }
    }
}

impl Drop for Store {
    fn drop(&mut self) {
        unsafe { vtex_cache_close(self.at()) };
    }
}

fn main() -> io::Result<()> {
    let words: Vec<String> = std::env::args().skip(1).collect();
    let numbers: Vec<u32> = words
        .iter()
        .skip(1)
        .filter_map(|word| word.parse().ok())
        .collect();
    if words.len() != 6 || numbers.len() != 5 {
        eprintln!("usage: vtex STORE LEVEL X Y WIDTH HEIGHT >PART.ppm");
        std::process::exit(2);
    }
    let mut store = Store::open(&words[0], 256)?;
    let part = store.region(numbers[0], numbers[1], numbers[2], numbers[3], numbers[4])?;
    let mut out = io::stdout().lock();
    write!(
        out,
        "P6\n{} {}\n{}\n",
        numbers[3],
        numbers[4],
        if store.depth() == 2 { 65535 } else { 255 }
    )?;
    out.write_all(&part)
}
