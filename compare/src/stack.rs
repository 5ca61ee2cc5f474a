//! How many bytes of stack a call takes below its caller's frame: it runs on a piece of memory that was painted for it, and
//! what paint is left says how deep it went.
//!
//! The stack pointer is set to the upper end of the piece just before the call, so nothing of the frames above is counted;
//! on x86-64 the return address is. Bytes at the bottom of a frame that are never written are not seen.
//!
//! Not to be run under valgrind, which takes the piece for frames that are gone and complains of every byte that is looked
//! at. Under an emulator of the processor it measures the same.

use crate::gen::deep_calls;
use crate::kernel::c;
use crate::model::Call;
use std::arch::asm;

/// The calls by their names in the header, behind SUMPNEWT_STACK_ and in its order.
pub const NAMES: [&str; 7] = ["OPEN", "SEAL", "SUMMARY", "SHOWN", "REMOVE", "PAGE", "FLIP"];

/// The bytes of a painted piece.
const PIECE: usize = 1 << 15;
/// A byte that a call writes differs from one of them.
const PAINTS: [u8; 2] = [0xA5, 0x5A];
/// The most arguments that a call has; both processors have a register for each.
const ARGUMENTS: usize = 6;

/// A stack has its frames at addresses that 16 divides.
#[repr(align(16))]
struct Piece([u8; PIECE]);

/// A C function, and its arguments: pointers, lengths and numbers alike.
#[derive(Clone, Copy)]
struct Callee {
    function: *const (),
    arguments: [usize; ARGUMENTS],
}

impl Callee {
    /// An input with its length, what comes between, an output with its length; a function that takes fewer does not look at
    /// the rest.
    fn new<T>(function: *const (), input: &[u8], between: &[usize], output: &mut [T]) -> Callee {
        let before = [input.as_ptr() as usize, input.len()];
        let behind = [output.as_mut_ptr() as usize, output.len()];
        let mut arguments = [0; ARGUMENTS];
        let given = [&before, between, &behind].concat();
        arguments[..given.len()].copy_from_slice(&given);
        Callee {
            function,
            arguments,
        }
    }

    /// The name of a call and the kernel's function for it; none for a printout, which is the program's.
    fn of_kernel(call: &mut Call) -> Option<(&'static str, Callee)> {
        Some(match call {
            Call::Open { block } => {
                let function = c::sumpnewt_open as *const ();
                ("OPEN", Callee::new::<u8>(function, block, &[], &mut []))
            }
            Call::Seal { fields, out } => {
                let function = c::sumpnewt_seal as *const ();
                ("SEAL", Callee::new(function, fields, &[], out))
            }
            Call::Summary { block, out } => {
                let function = c::sumpnewt_summary as *const ();
                ("SUMMARY", Callee::new(function, block, &[], out))
            }
            Call::Shown { block, out } => {
                let function = c::sumpnewt_shown as *const ();
                ("SHOWN", Callee::new(function, block, &[], out))
            }
            Call::Remove { block, ends, out } => {
                let function = c::sumpnewt_remove as *const ();
                ("REMOVE", Callee::new(function, block, ends, out))
            }
            Call::Page { block, ends, row } => {
                let function = c::sumpnewt_page as *const ();
                ("PAGE", Callee::new(function, block, ends, row))
            }
            Call::Flip {
                block,
                numbers,
                out,
            } => {
                let function = c::sumpnewt_flip as *const ();
                let numbers = [numbers.as_ptr() as usize, numbers.len()];
                ("FLIP", Callee::new(function, block, &numbers, out))
            }
            Call::Printout { .. } => return None,
        })
    }

    /// The bytes of stack that it takes.
    ///
    /// # Safety
    /// The function may be called with these arguments, once for each paint.
    unsafe fn depth(self) -> usize {
        let depths = PAINTS.map(|paint| unsafe { self.depth_in(paint) });
        depths[0].max(depths[1])
    }

    unsafe fn depth_in(self, paint: u8) -> usize {
        let mut piece = Box::new(Piece([paint; PIECE]));
        unsafe { self.called_on(piece.0.as_mut_ptr().add(PIECE)) };
        let mut stack = piece.0.iter();
        let lowest = stack.position(|byte| *byte != paint).unwrap_or(PIECE);
        assert!(lowest > 0, "the call needs more than the painted piece");
        PIECE - lowest
    }

    /// Calls it with this stack pointer.
    #[cfg(target_arch = "aarch64")]
    unsafe fn called_on(self, top: *mut u8) {
        let [first, second, third, fourth, fifth, sixth] = self.arguments;
        unsafe {
            asm!(
                "mov x20, sp",
                "mov sp, {top}",
                "blr {function}",
                "mov sp, x20",
                top = in(reg) top,
                function = in(reg) self.function,
                in("x0") first,
                in("x1") second,
                in("x2") third,
                in("x3") fourth,
                in("x4") fifth,
                in("x5") sixth,
                out("x20") _,
                clobber_abi("C"),
            );
        }
    }

    /// Calls it with this stack pointer.
    #[cfg(target_arch = "x86_64")]
    unsafe fn called_on(self, top: *mut u8) {
        let [first, second, third, fourth, fifth, sixth] = self.arguments;
        unsafe {
            asm!(
                "mov r12, rsp",
                "mov rsp, {top}",
                "call {function}",
                "mov rsp, r12",
                top = in(reg) top,
                function = in(reg) self.function,
                in("rdi") first,
                in("rsi") second,
                in("rdx") third,
                in("rcx") fourth,
                in("r8") fifth,
                in("r9") sixth,
                out("r12") _,
                clobber_abi("C"),
            );
        }
    }
}

/// The bytes of stack that a function takes.
pub fn depth(function: extern "C" fn()) -> usize {
    let callee = Callee::new::<u8>(function as *const (), &[], &[], &mut []);
    // SAFETY: it looks at no argument.
    unsafe { callee.depth() }
}

/// The most bytes of stack that each of the kernel's calls takes.
pub fn deepest() -> [(&'static str, usize); NAMES.len()] {
    let mut deepest = NAMES.map(|name| (name, 0));
    for mut call in deep_calls() {
        let Some((name, callee)) = Callee::of_kernel(&mut call) else {
            continue;
        };
        // SAFETY: the slices of the call are good for their lengths, and the output overlaps nothing.
        let depth = unsafe { callee.depth() };
        for (_, most) in deepest.iter_mut().filter(|(known, _)| *known == name) {
            *most = depth.max(*most);
        }
    }
    deepest
}

/// A removal as the header declares it.
pub type Remove = extern "C" fn(*const u8, usize, usize, usize, *mut u8, usize) -> u32;

/// The most bytes of stack that another removal takes, of the same inputs.
pub fn deepest_of(remove: Remove) -> usize {
    let removals = deep_calls().filter_map(|call| match call {
        Call::Remove { block, ends, out } => Some((block, ends, out)),
        _ => None,
    });
    let depths = removals.map(|(block, ends, mut out)| {
        let callee = Callee::new(remove as *const (), &block, &ends, &mut out);
        // SAFETY: as above.
        unsafe { callee.depth() }
    });
    depths.max().unwrap_or(0)
}
