//! The stack that a call takes (x86-64).
//!
//! Every call is made on a stack of its own that ends where the header says, with nothing accessible below: a call that takes
//! more faults. To measure, the stack is painted with one byte; the deepest byte that is no longer the painted one tells how
//! far the call went. Two paints, since a call may write a byte that is the same as the paint.

use std::arch::global_asm;
use std::sync::atomic::{AtomicBool, Ordering};
use std::sync::OnceLock;

use crate::ffi::{stands_in, Call, CALLS};
use crate::guard::Mapping;

/// Bytes of the painted stack.
const ROOM: usize = 256 * 1024;

/// The stack of a callee that does not keep to the header's figures: the stand-in, which is the reference solver, or a build with
/// checks of its own.
pub const STANDIN_STACK: usize = 128 * 1024;

static ROOMY: AtomicBool = AtomicBool::new(false);

/// From now on no call is held to the header's figure. To be called before the first call.
pub fn make_roomy() {
    ROOMY.store(true, Ordering::Relaxed);
}

/// Arguments that go in registers.
const IN_REGISTERS: usize = 6;

const PAINTS: [u8; 2] = [0xa5, 0x5a];

global_asm!(
    ".text",
    ".globl outside_call_on",
    "outside_call_on:",
    "push rbp",
    "push rbx",
    "mov rbp, rsp",
    "mov rsp, rdi",
    "mov rbx, rsi",
    "mov r10, rdx",
    "mov r11, rcx",
    "test r11, 1",
    "jz 2f",
    "sub rsp, 8",
    "2:",
    "test r11, r11",
    "jz 3f",
    "push qword ptr [r10 + 8 * r11 + 40]",
    "dec r11",
    "jmp 2b",
    "3:",
    "mov rdi, [r10]",
    "mov rsi, [r10 + 8]",
    "mov rdx, [r10 + 16]",
    "mov rcx, [r10 + 24]",
    "mov r8, [r10 + 32]",
    "mov r9, [r10 + 40]",
    "call rbx",
    "mov rsp, rbp",
    "pop rbx",
    "pop rbp",
    "ret",
);

extern "C" {
    /// Calls a function of the C interface with its stack pointer at `top`. `arguments` holds six for the
    /// registers, then `more` for the stack.
    fn outside_call_on(
        top: *mut u8,
        function: *const (),
        arguments: *const usize,
        more: usize,
    ) -> usize;
}

/// A stack to make calls on.
pub struct Stack {
    memory: Mapping,
}

impl Default for Stack {
    fn default() -> Self {
        Stack::new()
    }
}

impl Stack {
    pub fn new() -> Stack {
        Stack {
            memory: Mapping::for_stack(ROOM),
        }
    }

    /// Makes a call that has no more stack than the header says.
    ///
    /// # Safety
    /// The arguments are good for the function.
    pub unsafe fn limited(&mut self, call: Call, arguments: &[usize]) -> usize {
        let mut padded = [0; 12];
        padded[..arguments.len()].copy_from_slice(arguments);
        let more = arguments.len().saturating_sub(IN_REGISTERS);
        let top = self.memory.first().add(stated_stack(call));
        outside_call_on(top, call.function(), padded.as_ptr(), more)
    }

    /// What the function returns, and the bytes of stack that it takes, its return address and its arguments
    /// on the stack counted in. `arguments` lays out the lent memory afresh for each of the two calls.
    ///
    /// # Safety
    /// The function is one of the C interface and the arguments are good for it.
    pub unsafe fn measure(
        &mut self,
        function: *const (),
        mut arguments: impl FnMut() -> Vec<usize>,
    ) -> (usize, usize) {
        let (mut answer, mut deepest) = (0, 0);
        for paint in PAINTS {
            let (got, depth) = self.call(function, arguments(), paint);
            answer = got;
            deepest = deepest.max(depth);
        }
        (answer, deepest)
    }

    unsafe fn call(
        &mut self,
        function: *const (),
        mut arguments: Vec<usize>,
        paint: u8,
    ) -> (usize, usize) {
        let more = arguments.len().saturating_sub(IN_REGISTERS);
        arguments.resize(arguments.len().max(IN_REGISTERS), 0);
        let lowest = self.memory.first();
        lowest.write_bytes(paint, self.memory.usable);
        let top = lowest.add(self.memory.usable);
        let answer = outside_call_on(top, function, arguments.as_ptr(), more);
        let painted = std::slice::from_raw_parts(lowest, self.memory.usable);
        let kept = painted.iter().take_while(|byte| **byte == paint).count();
        (answer, self.memory.usable - kept)
    }
}

/// The name of a function's figure in the header.
pub fn stack_figure(call: Call) -> String {
    format!("SIMJORAD_STACK_{}", call.name().to_uppercase())
}

/// The stack that a call may take: the header's figure, in whole units of the stack's alignment.
fn stated_stack(call: Call) -> usize {
    static STATED: OnceLock<[usize; CALLS.len()]> = OnceLock::new();
    STATED.get_or_init(|| {
        CALLS.map(|call| {
            let stated = if stands_in() || ROOMY.load(Ordering::Relaxed) {
                STANDIN_STACK
            } else {
                header_figure(&stack_figure(call)).unwrap_or(0)
            };
            stated.next_multiple_of(16)
        })
    })[call as usize]
}

/// The header, whose figures bind.
const HEADER: &str = include_str!("../../include/simjorad.h");

/// The figure that the header defines by this name.
pub fn header_figure(name: &str) -> Result<usize, String> {
    for line in HEADER.lines() {
        let words: Vec<&str> = line.split_whitespace().collect();
        if let ["#define", defined, number, ..] = words[..] {
            if defined == name {
                return number
                    .parse()
                    .map_err(|_| format!("{name} is no number in the header"));
            }
        }
    }
    Err(format!("the header does not define {name}"))
}
