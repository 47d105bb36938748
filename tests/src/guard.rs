//! Guarded memory for lent slices (Linux).
//!
//! A mapping has inaccessible memory on both sides. A slice touches one of the two: a read or write past
//! that edge faults at once. At the other edge stand guard bytes, which are compared after the call.
//!
//! Each mapping is there twice: once to read and write, and once to read only. A slice that a call only reads is lent from the
//! second, so that a write faults even if the number is put back.

use std::ffi::{c_char, c_void};
use std::fmt::Debug;
use std::ptr;
use std::sync::Mutex;

extern "C" {
    fn mmap(
        addr: *mut c_void,
        length: usize,
        prot: i32,
        flags: i32,
        fd: i32,
        at: i64,
    ) -> *mut c_void;
    fn munmap(addr: *mut c_void, length: usize) -> i32;
    fn memfd_create(name: *const c_char, flags: u32) -> i32;
    fn ftruncate(fd: i32, length: i64) -> i32;
    fn close(fd: i32) -> i32;
}

const PROT_NONE: i32 = 0;
const PROT_READ: i32 = 1;
const PROT_READ_WRITE: i32 = 3;
const MAP_SHARED_FIXED: i32 = 0x11;
const MAP_PRIVATE_ANONYMOUS: i32 = 0x22;
const MAP_NORESERVE: i32 = 0x4000;
const MEMORY_PAGE: usize = 4096;
const GUARD_BYTES: usize = 128;
const SMALL: usize = 8 * MEMORY_PAGE;
const LARGE: usize = 256 * MEMORY_PAGE;
/// The greatest count of slices lent to one call.
pub const SLICES: usize = 5;

fn guard_byte(position: usize) -> u8 {
    (position as u8).wrapping_mul(37).wrapping_add(0x5a)
}

/// Which edge of the mapping a slice touches.
#[derive(Clone, Copy, Debug, PartialEq, Eq)]
pub enum Side {
    /// The slice ends where the inaccessible memory begins.
    End,
    /// The slice begins where the inaccessible memory ends.
    Start,
}

/// What a fault at an address means, for the report.
#[derive(Clone, Copy, PartialEq, Eq)]
pub enum Region {
    ReadOnly,
    Stack,
}

/// The ranges of addresses with a meaning.
static REGIONS: Mutex<Vec<(usize, usize, Region)>> = Mutex::new(Vec::new());

/// What lies at an address, if it is known.
pub fn region(address: usize) -> Option<Region> {
    let regions = REGIONS.try_lock().ok()?;
    let found = regions
        .iter()
        .find(|(start, end, _)| (*start..*end).contains(&address));
    found.map(|(_, _, region)| *region)
}

/// Inaccessible memory, of which parts are then opened.
fn reserve(length: usize) -> *mut u8 {
    let flags = MAP_PRIVATE_ANONYMOUS | MAP_NORESERVE;
    // SAFETY: a fresh private mapping.
    let whole = unsafe { mmap(ptr::null_mut(), length, PROT_NONE, flags, -1, 0) };
    assert!(whole as isize != -1, "no memory for a guarded mapping");
    whole as *mut u8
}

/// Memory between inaccessible parts, to write and as a view to read.
pub struct Mapping {
    whole: [*mut u8; 2],
    before: usize,
    pub usable: usize,
}

impl Mapping {
    pub fn new(usable: usize) -> Mapping {
        Mapping::behind(MEMORY_PAGE, usable)
    }

    /// With this many inaccessible bytes before it.
    fn behind(before: usize, usable: usize) -> Mapping {
        let length = before + usable + MEMORY_PAGE;
        let whole = [reserve(length), reserve(length)];
        // SAFETY: the middle parts of the two fresh mappings become two views of one fresh file in memory.
        unsafe {
            let fd = memfd_create(c"lent".as_ptr(), 0);
            assert!(fd >= 0 && ftruncate(fd, usable as i64) == 0, "no memory");
            for (start, prot) in whole.iter().zip([PROT_READ_WRITE, PROT_READ]) {
                let middle = start.add(before) as *mut c_void;
                let opened = mmap(middle, usable, prot, MAP_SHARED_FIXED, fd, 0);
                assert!(opened == middle, "a guarded mapping cannot be opened");
            }
            close(fd);
        }
        let mapping = Mapping {
            whole,
            before,
            usable,
        };
        let start = mapping.first_read() as usize;
        mapping.register(start, start + usable, Region::ReadOnly);
        mapping
    }

    /// Memory for a stack: far below it nothing is accessible, so that no call can step over the edge.
    pub fn for_stack(usable: usize) -> Mapping {
        const BELOW: usize = 64 << 20;
        let mapping = Mapping::behind(BELOW, usable);
        let start = mapping.first() as usize;
        mapping.register(start - BELOW, start, Region::Stack);
        mapping
    }

    fn register(&self, start: usize, end: usize, region: Region) {
        let mut regions = REGIONS.lock().expect("no holder dies");
        regions.push((start, end, region));
    }

    /// The lowest usable byte.
    pub fn first(&self) -> *mut u8 {
        // SAFETY: inside the mapping.
        unsafe { self.whole[0].add(self.before) }
    }

    /// The same byte, to read only.
    fn first_read(&self) -> *const u8 {
        // SAFETY: inside the mapping.
        unsafe { self.whole[1].add(self.before) }
    }
}

impl Drop for Mapping {
    fn drop(&mut self) {
        let length = self.before + self.usable + MEMORY_PAGE;
        let mine = self.whole.map(|start| start as usize);
        let mut regions = REGIONS.lock().expect("no holder dies");
        regions.retain(|(start, _, _)| {
            !mine
                .iter()
                .any(|first| (*first..*first + length).contains(start))
        });
        // SAFETY: the mappings are this value's own.
        unsafe {
            munmap(self.whole[0] as *mut c_void, length);
            munmap(self.whole[1] as *mut c_void, length);
        }
    }
}

// SAFETY: a mapping belongs to its value alone.
unsafe impl Send for Mapping {}

/// Mappings used again for every call, one small and one large per slice of a call.
pub struct Pool {
    small: Vec<Mapping>,
    large: Vec<Mapping>,
}

impl Default for Pool {
    fn default() -> Self {
        Pool::new()
    }
}

impl Pool {
    pub fn new() -> Pool {
        Pool {
            small: (0..SLICES).map(|_| Mapping::new(SMALL)).collect(),
            large: (0..SLICES).map(|_| Mapping::new(LARGE)).collect(),
        }
    }

    /// Copies a slice into guarded memory. The loan lasts until the same place is lent again.
    pub fn lend<T: Copy>(&mut self, place: usize, content: &[T], side: Side) -> Loan<T> {
        let bytes = std::mem::size_of_val(content);
        let mapping = if bytes + GUARD_BYTES <= SMALL {
            &self.small[place]
        } else {
            &self.large[place]
        };
        assert!(
            bytes + GUARD_BYTES <= mapping.usable,
            "a slice is too long to lend"
        );
        let first = mapping.first();
        // SAFETY: slice and guard lie inside the usable part; its edges are aligned for every number.
        unsafe {
            let (start, guard) = match side {
                Side::End => {
                    let start = first.add(mapping.usable - bytes);
                    (start, start.sub(GUARD_BYTES))
                }
                Side::Start => (first, first.add(bytes)),
            };
            ptr::copy_nonoverlapping(content.as_ptr() as *const u8, start, bytes);
            for position in 0..GUARD_BYTES {
                guard.add(position).write(guard_byte(position));
            }
            let distance = start as usize - first as usize;
            Loan {
                start: start as *mut T,
                read: mapping.first_read().add(distance) as *const T,
                length: content.len(),
                guard,
            }
        }
    }
}

/// One lent slice.
#[derive(Clone, Copy)]
pub struct Loan<T> {
    start: *mut T,
    /// The same place in the view that is only read.
    read: *const T,
    length: usize,
    guard: *mut u8,
}

impl<T: Copy + PartialEq + Debug> Loan<T> {
    /// The empty slice at NULL.
    pub fn null() -> Loan<T> {
        Loan {
            start: ptr::null_mut(),
            read: ptr::null(),
            length: 0,
            guard: ptr::null_mut(),
        }
    }

    /// For a slice that the call only reads: a write there faults.
    pub fn ptr(&self) -> *const T {
        self.read
    }

    /// For a slice that the call may write.
    pub fn ptr_mut(&self) -> *mut T {
        self.start
    }

    fn content(&self) -> &[T] {
        if self.start.is_null() {
            return &[];
        }
        // SAFETY: the loan covers that many numbers of its mapping.
        unsafe { std::slice::from_raw_parts(self.start, self.length) }
    }

    fn check_guard(&self, name: &str) -> Result<(), String> {
        if self.guard.is_null() {
            return Ok(());
        }
        for position in 0..GUARD_BYTES {
            // SAFETY: the guard bytes lie in the mapping.
            let byte = unsafe { self.guard.add(position).read() };
            if byte != guard_byte(position) {
                return Err(format!("a guard byte beside `{name}` is overwritten"));
            }
        }
        Ok(())
    }

    /// Ends the loan of a slice that the call only reads.
    pub fn end_const(&self, name: &str, content: &[T]) -> Result<(), String> {
        self.check_guard(name)?;
        match first_difference(self.content(), content) {
            None => Ok(()),
            Some(at) => Err(format!(
                "`{name}` is only read, but number {at} is changed from {:?} to {:?}",
                content[at],
                self.content()[at]
            )),
        }
    }

    /// Ends the loan of a slice that the call may write.
    pub fn end_mut(&self, name: &str, content: &mut [T]) -> Result<(), String> {
        self.check_guard(name)?;
        content.copy_from_slice(self.content());
        Ok(())
    }
}

/// The first place where two slices of one length differ.
pub fn first_difference<T: PartialEq>(left: &[T], right: &[T]) -> Option<usize> {
    left.iter().zip(right).position(|(a, b)| a != b)
}
