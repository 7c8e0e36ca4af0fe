//! Measuring: interleaved timing, and stack use by painting.

use std::time::Instant;

/// Rounds of an interleaved measurement: their number (odd: the median is one of them), and the
/// aim of a batch of calls in each, in nanoseconds.
pub struct Rounds {
    count: usize,
    batch: u128,
}

/// Short, so that both see the same machine.
pub const SHORT: Rounds = Rounds { count: 801, batch: 100_000 };
/// Long, so that the processor forgets what the other one taught it.
pub const LONG: Rounds = Rounds { count: 51, batch: 10_000_000 };

/// What interleaved rounds show of two functions, in nanoseconds per call.
pub struct Timing {
    pub first: f64,
    pub second: f64,
    pub first_least: f64,
    pub second_least: f64,
    /// Median of the rounds' own ratios, first over second.
    pub ratio: f64,
}

fn timed(calls: u32, work: &mut dyn FnMut()) -> f64 {
    let start = Instant::now();
    for _ in 0..calls {
        work();
    }
    start.elapsed().as_nanos() as f64 / f64::from(calls)
}

/// Calls that fill a batch.
fn calls_of(batch: u128, work: &mut dyn FnMut()) -> u32 {
    let mut calls = 1;
    loop {
        let start = Instant::now();
        for _ in 0..calls {
            work();
        }
        if start.elapsed().as_nanos() > batch / 2 || calls > 1 << 24 {
            return calls;
        }
        calls *= 2;
    }
}

fn sorted(mut values: Vec<f64>) -> Vec<f64> {
    values.sort_by(f64::total_cmp);
    values
}

/// Times two functions turn by turn; each round changes which goes first.
pub fn interleaved(rounds: &Rounds, first: &mut dyn FnMut(), second: &mut dyn FnMut()) -> Timing {
    let (first_calls, second_calls) =
        (calls_of(rounds.batch, first), calls_of(rounds.batch, second));
    let (mut firsts, mut seconds) = (Vec::new(), Vec::new());
    for round in 0..rounds.count {
        if round % 2 == 0 {
            firsts.push(timed(first_calls, first));
            seconds.push(timed(second_calls, second));
        } else {
            seconds.push(timed(second_calls, second));
            firsts.push(timed(first_calls, first));
        }
    }
    let ratios = firsts.iter().zip(&seconds).map(|(first, second)| first / second);
    let ratios = sorted(ratios.collect());
    let (firsts, seconds) = (sorted(firsts), sorted(seconds));
    Timing {
        first: firsts[rounds.count / 2],
        second: seconds[rounds.count / 2],
        first_least: firsts[0],
        second_least: seconds[0],
        ratio: ratios[rounds.count / 2],
    }
}

/// Bytes of stack that a call overwrites, its caller's frame included.
#[cfg(target_arch = "x86_64")]
pub fn stack_use(work: &mut dyn FnMut()) -> usize {
    const SIZE: usize = 8 << 20;
    const PAINT: u64 = 0x5aa5_c33c_96e1_780f;
    let mut stack = vec![PAINT; SIZE / 8];
    // SAFETY: the end of the area, rounded down to 16 bytes, starts a stack of 8 MiB.
    unsafe {
        let top = stack.as_mut_ptr().add(stack.len());
        let top = top.wrapping_byte_sub(top as usize % 16);
        let mut work = work;
        on_stack(top.cast(), (&raw mut work).cast());
    }
    let untouched = stack.iter().position(|&word| word != PAINT).unwrap_or(stack.len());
    8 * (stack.len() - untouched)
}

#[cfg(target_arch = "x86_64")]
unsafe extern "C" fn call(work: *mut std::ffi::c_void) {
    let work = unsafe { &mut *work.cast::<&mut dyn FnMut()>() };
    work();
}

/// Calls `call(work)` with the stack pointer set to `top`.
#[cfg(target_arch = "x86_64")]
unsafe fn on_stack(top: *mut u8, work: *mut std::ffi::c_void) {
    let function: unsafe extern "C" fn(*mut std::ffi::c_void) = call;
    unsafe {
        std::arch::asm!(
            "mov r12, rsp",
            "mov rsp, {top}",
            "call {function}",
            "mov rsp, r12",
            top = in(reg) top,
            function = in(reg) function,
            in("rdi") work,
            out("r12") _,
            clobber_abi("C"),
        );
    }
}

#[cfg(test)]
mod tests {
    use super::*;

    #[test]
    fn stack_use_sees_an_array() {
        let empty = stack_use(&mut || ());
        let mut sum = 0u64;
        let large = stack_use(&mut || {
            let array = std::hint::black_box([1u8; 100_000]);
            sum = array.iter().map(|&byte| u64::from(byte)).sum();
        });
        assert_eq!(sum, 100_000);
        assert!(empty < 4096, "{empty}");
        assert!((100_000..500_000).contains(&large), "{large}");
    }
}
