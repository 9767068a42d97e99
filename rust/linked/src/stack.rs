//! The stack that a call needs: it is made on a painted one, and the lowest byte
//! that it changed is looked for.

use crate::calls::{Call, Calls, NAMES};
use crate::seeded;
use crate::work::{On, Work};
use events::random::Random;
use inblock::BLOCK_BYTES;
use std::arch::asm;

const STACK_BYTES: usize = 64 * 1024;
const SEQUENCES: usize = 12;
const CALLS: usize = 150;

/// The two arguments of the widest call that are no registers'.
const PUSHED: usize = 16;

pub struct Stack {
    bytes: Vec<u8>,
}

impl Stack {
    pub fn new() -> Stack {
        Stack {
            bytes: vec![0; STACK_BYTES + 16],
        }
    }

    /// The bytes below a call's arguments that it changed. A byte that happens to
    /// be given the colour is missed, so there are two.
    pub fn used(&mut self, function: usize, words: [usize; 8]) -> usize {
        self.used_over(0xa5, function, words)
            .max(self.used_over(0x5a, function, words))
    }

    fn used_over(&mut self, colour: u8, function: usize, words: [usize; 8]) -> usize {
        self.bytes.fill(colour);
        let start = self.bytes.as_mut_ptr() as usize;
        let top = (start + STACK_BYTES) / 16 * 16;
        // SAFETY: the memory above is this stack's alone, and the call's arguments are those of its C type
        unsafe { call_on(top, function, words) };
        let lowest = self.bytes.iter().position(|&byte| byte != colour);
        let lowest = start + lowest.expect("the pushed arguments at least");
        assert!(lowest > start, "the painted stack is too small");
        (top - PUSHED).saturating_sub(lowest)
    }
}

/// Calls a C function of up to eight numbers on a stack that begins at `top`.
///
/// # Safety
/// The function must take these numbers, and the stack below `top` be nobody's.
unsafe fn call_on(top: usize, function: usize, words: [usize; 8]) {
    let [a, b, c, d, e, f, g, h] = words;
    asm!(
        "mov r12, rsp",
        "mov rsp, r13",
        "push r15",
        "push r14",
        "call r10",
        "mov rsp, r12",
        in("r13") top,
        in("r14") g,
        in("r15") h,
        in("r10") function,
        in("rdi") a,
        in("rsi") b,
        in("rdx") c,
        in("rcx") d,
        in("r8") e,
        in("r9") f,
        out("r12") _,
        clobber_abi("C"),
    );
}

extern "C" fn empty() {}

/// The most that each call used, in the order of the names, less what a call of
/// an empty function uses.
pub fn worst(calls: &Calls, seed: u64) -> [usize; NAMES.len()] {
    let mut stack = Stack::new();
    let nothing = stack.used(empty as *const () as usize, [0; 8]);
    let mut worst = [0; NAMES.len()];
    let mut random = Random::new(seed);
    let mut made = |call: &Call, block: &mut [u8]| {
        let mut copy = block.to_vec();
        let [c, d, e, f, g, h] = call.arguments();
        let words = [copy.as_mut_ptr() as usize, copy.len(), c, d, e, f, g, h];
        let used = stack.used(call.function(calls), words) - nothing;
        let most: &mut usize = &mut worst[call.kind()];
        *most = used.max(*most);
        calls.make(call, block);
    };
    for work in [
        Work::Check(On::Held(0)),
        Work::Check(On::Held(63)),
        Work::Scan,
        Work::Recheck(63),
    ] {
        for call in [
            Call::Begin(1, 0, vec![252, 253], vec![254, 255]),
            Call::Finish(1, 1),
            Call::Recheck(1, 1),
            Call::Scan(1),
            Call::Pick,
            Call::Deliver(1, 1),
            Call::Evict(1, 1),
            Call::Cancel(1, 1),
            Call::Grant(1, 0),
            Call::Sound,
            Call::Held,
            Call::Open(vec![4; 16]),
        ] {
            made(&call, &mut work.block(calls));
        }
    }
    for _ in 0..SEQUENCES {
        let top = random.one_of(&[20, 90, 255]);
        let mut block = random.bytes(BLOCK_BYTES);
        made(&Call::Open(seeded::shares(&mut random)), &mut block);
        for tenant in 1..=16 {
            made(&Call::Grant(tenant, 1_000), &mut block);
        }
        for _ in 0..CALLS {
            if random.chance(20) {
                let mut damaged = block.clone();
                seeded::damage(&mut random, &mut damaged);
                made(&seeded::call(&mut random, &damaged, top), &mut damaged);
            }
            made(&seeded::call(&mut random, &block, top), &mut block);
        }
    }
    worst
}
