//! Runs the named cases: their items are shared among the workers, each item with a fixed seed.

use std::cell::RefCell;
use std::collections::BTreeMap;
use std::ffi::c_void;
use std::io::Write;
use std::ops::Range;
use std::panic::{self, AssertUnwindSafe};
use std::sync::atomic::{AtomicBool, AtomicPtr, AtomicU64, AtomicUsize, Ordering::SeqCst};
use std::sync::{mpsc, Mutex};
use std::thread;
use std::time::{Duration, Instant};

use crate::answer::Refusal;
use crate::guard::{self, Region};
use crate::rng::seed_of;
use crate::slot::{self, WORKERS};
use crate::trial::{Check, Trial};

/// A call, or the work between two calls, that takes longer counts as a stall and ends the run.
const STALL_SECONDS: u64 = 60;

/// The stack of a worker.
const WORKER_STACK: usize = 1 << 20;

/// The stack on which a fault is reported.
const REPORT_STACK: usize = 1 << 18;

/// A named case.
pub struct Case {
    pub name: &'static str,
    /// How often `each` runs, every time with another seed.
    pub items: u64,
    /// The body; it is given the item's number.
    pub each: fn(&mut Trial, u64) -> Check,
    /// Outcomes that must come up at least once, so that the case cannot pass by trying nothing.
    pub must_see: &'static [(&'static str, Refusal)],
}

impl Case {
    /// A case that need not see any outcome.
    pub fn new(name: &'static str, items: u64, each: fn(&mut Trial, u64) -> Check) -> Case {
        Case {
            name,
            items,
            each,
            must_see: &[],
        }
    }
}

static PASSED: AtomicU64 = AtomicU64::new(0);
static FAILED: AtomicU64 = AtomicU64::new(0);
/// The name of the case under way, for the fault report.
static NAME: AtomicPtr<u8> = AtomicPtr::new(std::ptr::null_mut());
static NAME_LENGTH: AtomicUsize = AtomicUsize::new(0);

thread_local! {
    static PANIC: RefCell<String> = const { RefCell::new(String::new()) };
}

/// As the C library has it on x86-64.
#[repr(C)]
struct Action {
    handler: usize,
    mask: [u64; 16],
    flags: i32,
    restorer: usize,
}

#[repr(C)]
struct AlternateStack {
    start: *mut c_void,
    flags: i32,
    size: usize,
}

const ON_ALTERNATE_STACK: i32 = 0x0800_0000;
const WITH_INFORMATION: i32 = 4;

extern "C" {
    fn sigaction(number: i32, action: *const Action, old: *mut Action) -> i32;
    fn sigaltstack(stack: *const AlternateStack, old: *mut AlternateStack) -> i32;
    fn _exit(code: i32) -> !;
    fn write(fd: i32, bytes: *const u8, length: usize) -> isize;
}

fn set_name(name: &'static str) {
    NAME.store(name.as_ptr() as *mut u8, SeqCst);
    NAME_LENGTH.store(name.len(), SeqCst);
}

fn name() -> &'static str {
    let start = NAME.load(SeqCst);
    if start.is_null() {
        return "before_the_first_case";
    }
    // SAFETY: the pointer and the length are those of a static name.
    unsafe {
        std::str::from_utf8_unchecked(std::slice::from_raw_parts(start, NAME_LENGTH.load(SeqCst)))
    }
}

/// Prints past every buffer and ends the program; the first to die speaks for all.
fn die(text: String) -> ! {
    static DYING: AtomicBool = AtomicBool::new(false);
    while DYING.swap(true, SeqCst) {
        thread::sleep(Duration::from_secs(1));
    }
    let total = format!(
        "{text}\n{} passed, {} failed\n",
        PASSED.load(SeqCst),
        FAILED.load(SeqCst) + 1
    );
    let mut rest = total.as_bytes();
    // SAFETY: plain calls of the C library on valid bytes.
    unsafe {
        while !rest.is_empty() {
            let written = write(1, rest.as_ptr(), rest.len());
            if written <= 0 {
                break;
            }
            rest = &rest[written as usize..];
        }
        _exit(1)
    }
}

/// Reports a fault inside a call; the calls allocate nothing, so the report may.
extern "C" fn on_signal(number: i32, information: *const usize, _: *const c_void) {
    // SAFETY: the third word of the information is the address of a memory fault.
    let address = unsafe { *information.add(2) };
    let what = match number {
        11 | 7 => match guard::region(address) {
            Some(Region::ReadOnly) => "a slice that is only read is written",
            Some(Region::Stack) => "the call takes more stack than the header says",
            None => "memory outside the lent slices is touched",
        },
        6 => "the call aborts",
        4 => "the call traps",
        _ => "the call raises an arithmetic fault",
    };
    let slot = slot::mine();
    die(format!(
        "FAILED {}: {what} (signal {number}); item {}, seed {:#018x}; {}",
        name(),
        slot.item(),
        seed_of(name(), slot.item()),
        slot.dump()
    ));
}

fn install_handlers() {
    let action = Action {
        handler: on_signal as *const () as usize,
        mask: [0; 16],
        flags: ON_ALTERNATE_STACK | WITH_INFORMATION,
        restorer: 0,
    };
    for number in [4, 6, 7, 8, 11] {
        // SAFETY: the handler has the type that the C library calls.
        unsafe { sigaction(number, &action, std::ptr::null_mut()) };
    }
    panic::set_hook(Box::new(|info| {
        PANIC.with(|text| *text.borrow_mut() = info.to_string().replace('\n', " "));
    }));
}

/// Gives this thread a stack on which a fault of its own stack can be reported.
fn report_stack() {
    let memory = Box::leak(vec![0u8; REPORT_STACK].into_boxed_slice());
    let stack = AlternateStack {
        start: memory.as_mut_ptr() as *mut c_void,
        flags: 0,
        size: REPORT_STACK,
    };
    // SAFETY: the memory is never freed.
    unsafe { sigaltstack(&stack, std::ptr::null_mut()) };
}

/// The outcome of one case.
struct Outcome {
    pages: u64,
    calls: u64,
    /// The time of the case and of its longest call.
    time: Duration,
    longest: Duration,
    /// The lowest failing item and why it fails.
    failure: Option<(u64, String)>,
}

fn run_case(case: &Case, items: Range<u64>, trials: &mut [Trial]) -> Outcome {
    set_name(case.name);
    let start = Instant::now();
    let next = AtomicU64::new(items.start);
    let first_failure = AtomicU64::new(u64::MAX);
    let failures: Mutex<BTreeMap<u64, String>> = Mutex::new(BTreeMap::new());
    let (done, finished) = mpsc::channel();
    thread::scope(|scope| {
        for (worker, trial) in trials.iter_mut().enumerate() {
            let (next, first_failure, failures) = (&next, &first_failure, &failures);
            let done = done.clone();
            let builder = thread::Builder::new().stack_size(WORKER_STACK);
            let work = move || {
                slot::take(worker);
                report_stack();
                loop {
                    let item = next.fetch_add(1, SeqCst);
                    if item >= items.end || item > first_failure.load(SeqCst) {
                        break;
                    }
                    slot::mine().begin_item(item);
                    trial.begin(seed_of(case.name, item));
                    let result = panic::catch_unwind(AssertUnwindSafe(|| (case.each)(trial, item)));
                    slot::mine().end_item();
                    let reason = match result {
                        Ok(Ok(())) => continue,
                        Ok(Err(reason)) => reason,
                        Err(_) => PANIC.with(|text| text.borrow().clone()),
                    };
                    first_failure.fetch_min(item, SeqCst);
                    failures
                        .lock()
                        .expect("no worker dies")
                        .insert(item, reason);
                }
                let _ = done.send(());
            };
            builder.spawn_scoped(scope, work).expect("a thread starts");
        }
        let mut left = WORKERS;
        while left > 0 {
            if finished.recv_timeout(Duration::from_millis(500)).is_ok() {
                left -= 1;
                continue;
            }
            for slot in slot::all() {
                if slot.seconds() > STALL_SECONDS {
                    die(format!(
                        "FAILED {}: no end after {STALL_SECONDS} s, in call {}; item {}, seed {:#018x}",
                        case.name,
                        slot.call(),
                        slot.item(),
                        seed_of(case.name, slot.item())
                    ));
                }
            }
        }
    });
    let mut outcome = Outcome {
        pages: 0,
        calls: 0,
        time: start.elapsed(),
        longest: Duration::ZERO,
        failure: failures.into_inner().expect("no worker dies").pop_first(),
    };
    let mut seen = BTreeMap::new();
    for trial in trials.iter_mut() {
        outcome.pages += trial.pages;
        outcome.calls += trial.engine.calls;
        outcome.longest = outcome.longest.max(trial.engine.longest);
        for (what, count) in &trial.seen {
            *seen.entry(*what).or_insert(0) += count;
        }
        trial.clear();
    }
    // One item alone need not see everything.
    let alone = items.end - items.start == 1 && case.items > 1;
    if outcome.failure.is_none() && !alone {
        let missing = case.must_see.iter().find(|what| !seen.contains_key(*what));
        if let Some((call, code)) = missing {
            outcome.failure = Some((0, format!("no {call} call came to outcome {code}")));
        }
    }
    outcome
}

/// Runs the cases and prints a line for each, then the totals; true if some run and all pass.
/// `share` divides the number of items; `only` keeps the cases whose name contains it.
pub fn run(cases: &[Case], share: u64, only: &str) -> bool {
    let all = |case: &Case| 0..case.items.div_ceil(share);
    run_items(cases, all, only, false)
}

/// Runs one item of the cases whose name contains the text.
pub fn run_item(cases: &[Case], item: u64, only: &str) -> bool {
    run_items(cases, |_| item..item + 1, only, false)
}

/// Runs a tenth of the items until a case fails.
pub fn run_until_failure(cases: &[Case]) -> bool {
    let some = |case: &Case| 0..case.items.div_ceil(10);
    run_items(cases, some, "", true)
}

fn run_items(
    cases: &[Case],
    items: impl Fn(&Case) -> Range<u64>,
    only: &str,
    until_failure: bool,
) -> bool {
    install_handlers();
    let mut trials: Vec<Trial> = (0..WORKERS).map(|_| Trial::new()).collect();
    let (mut pages, mut calls) = (0, 0);
    for case in cases.iter().filter(|case| case.name.contains(only)) {
        if until_failure && FAILED.load(SeqCst) > 0 {
            break;
        }
        let outcome = run_case(case, items(case), &mut trials);
        pages += outcome.pages;
        calls += outcome.calls;
        match outcome.failure {
            None => {
                PASSED.fetch_add(1, SeqCst);
                println!(
                    "ok {} ({} pages, {} calls; {:.1} s, longest call {:.1} s)",
                    case.name,
                    outcome.pages,
                    outcome.calls,
                    outcome.time.as_secs_f64(),
                    outcome.longest.as_secs_f64()
                );
            }
            Some((item, reason)) => {
                FAILED.fetch_add(1, SeqCst);
                println!(
                    "FAILED {}: {reason}; item {item}, seed {:#018x}",
                    case.name,
                    seed_of(case.name, item)
                );
            }
        }
        let _ = std::io::stdout().flush();
    }
    println!("in all {pages} pages, {calls} calls");
    let (passed, failed) = (PASSED.load(SeqCst), FAILED.load(SeqCst));
    println!("{passed} passed, {failed} failed");
    failed == 0 && passed > 0
}
