//! What each worker is doing now, so that a memory fault or a stall inside a call can be reported.

use std::cell::Cell;
use std::fmt::Write;
use std::sync::atomic::{AtomicU64, AtomicUsize, Ordering::SeqCst};
use std::sync::OnceLock;
use std::time::Instant;

use crate::ffi::{Call, CALLS};
use crate::guard::SLICES;
use crate::input::{shown_numbers, shown_text};

pub const WORKERS: usize = 2;

/// One slice of the call under way: start, length and bytes per number.
#[derive(Default)]
struct Seen {
    start: AtomicUsize,
    length: AtomicUsize,
    width: AtomicUsize,
}

#[derive(Default)]
pub struct Slot {
    /// The call under way, from 1; 0 is none.
    call: AtomicUsize,
    item: AtomicU64,
    /// Milliseconds from the program's start to that of the item or of the call; 0 while idle.
    since: AtomicU64,
    numbers: [AtomicU64; 1],
    slices: [Seen; SLICES],
}

static SLOTS: OnceLock<Vec<Slot>> = OnceLock::new();
static START: OnceLock<Instant> = OnceLock::new();

thread_local! {
    static MINE: Cell<usize> = const { Cell::new(0) };
}

pub fn all() -> &'static [Slot] {
    SLOTS.get_or_init(|| (0..WORKERS).map(|_| Slot::default()).collect())
}

fn now() -> u64 {
    START.get_or_init(Instant::now).elapsed().as_millis() as u64 + 1
}

/// The slot of the worker on this thread.
pub fn mine() -> &'static Slot {
    &all()[MINE.get()]
}

/// Makes this thread the given worker.
pub fn take(worker: usize) {
    MINE.set(worker);
}

impl Slot {
    pub fn begin_item(&self, item: u64) {
        self.call.store(0, SeqCst);
        self.item.store(item, SeqCst);
        self.since.store(now(), SeqCst);
    }

    pub fn end_item(&self) {
        self.since.store(0, SeqCst);
    }

    pub fn item(&self) -> u64 {
        self.item.load(SeqCst)
    }

    pub fn call(&self) -> &'static str {
        match self.call.load(SeqCst) {
            0 => "none",
            number => CALLS[number - 1].name(),
        }
    }

    /// Seconds since the item or the call under way began.
    pub fn seconds(&self) -> u64 {
        match self.since.load(SeqCst) {
            0 => 0,
            since => now().saturating_sub(since) / 1000,
        }
    }

    /// Notes the call that begins: its number argument and its slices.
    pub fn enter(&self, call: Call, number: u64, slices: &[(usize, usize, usize)]) {
        self.numbers[0].store(number, SeqCst);
        for (place, seen) in self.slices.iter().enumerate() {
            let (start, length, width) = slices.get(place).copied().unwrap_or((0, 0, 0));
            seen.start.store(start, SeqCst);
            seen.length.store(length, SeqCst);
            seen.width.store(width, SeqCst);
        }
        self.since.store(now(), SeqCst);
        self.call.store(call as usize + 1, SeqCst);
    }

    pub fn leave(&self) {
        self.call.store(0, SeqCst);
    }

    /// The call under way, written out from the lent memory. Only for the thread that makes the call.
    pub fn dump(&self) -> String {
        let mut out = format!(
            "call {}; number {}",
            self.call(),
            self.numbers[0].load(SeqCst)
        );
        for (place, seen) in self.slices.iter().enumerate() {
            let (start, length) = (seen.start.load(SeqCst), seen.length.load(SeqCst));
            let shown = match seen.width.load(SeqCst) {
                0 => continue,
                _ if start == 0 => "at NULL".to_string(),
                // SAFETY: the slice is lent from a mapping that outlives the call.
                1 => shown_text(unsafe { std::slice::from_raw_parts(start as *const u8, length) }),
                // SAFETY: as above.
                _ => shown_numbers(unsafe {
                    std::slice::from_raw_parts(start as *const u16, length)
                }),
            };
            let _ = write!(out, "; slice {} of {length} {shown}", place + 1);
        }
        out
    }
}
