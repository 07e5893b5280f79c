//! The stack that a call takes: painted before the call, looked through after it.

use std::thread;

use oracle::state::Cutter;

use crate::ours::{Answer, Made, Refusal};
use crate::{ours, states};

const PAINT: u8 = 165;
const PAINTED: usize = 64 * 1024;
const STACK: usize = 1024 * 1024;

/// How deep a call went below its caller, and how many bytes of that it wrote.
struct Used {
    deep: usize,
    written: usize,
}

#[inline(never)]
fn used(call: impl FnOnce()) -> Used {
    let here = 0u8;
    let top = &raw const here as usize;
    // Below this function's own frame nothing lives until it calls.
    let own = 512;
    let bottom = top - PAINTED;
    for at in bottom..top - own {
        unsafe { (at as *mut u8).write_volatile(PAINT) };
    }
    call();
    let touched = |at: &usize| unsafe { (*at as *const u8).read_volatile() } != PAINT;
    let deepest = (bottom..top - own).find(touched).unwrap_or(top);
    Used { deep: top - deepest, written: (bottom..top - own).filter(touched).count() }
}

type Call = fn(&Cutter, &mut Answer);

fn on_thread(state: Cutter, call: Call) -> Used {
    let run = move || {
        let mut out = Answer { refusal: Refusal::default(), game: state.clone(), searched: 0, walked: 0 };
        used(|| call(&state, &mut out))
    };
    thread::Builder::new().stack_size(STACK).spawn(run).expect("a thread").join().expect("a call")
}

pub fn rows() {
    println!("| Cutter call | stack below it, bytes | of them written |");
    println!("|---|---|---|");
    let rule = |c: &Cutter, _: &mut Answer| ours::cutter_step(c, &mut Made::of(c.clone()));
    let calls: [(&str, Cutter, Call); 8] = [
        ("copied in and out", states::middle().remove(0), |c, out| {
            ours::cutter_copy(c, &mut out.game)
        }),
        ("step laying line", states::laying().remove(0), rule),
        ("closing a middle cut", states::middle().remove(0), rule),
        ("closing with 400 regions of a cell, and a walk", states::chequers(400).remove(0), rule),
        ("the walk at its worst", states::far().remove(0), |c, _| _ = ours::cutter_walk(c)),
        ("the public call, laying line", states::laying().remove(0), ours::cutter_call_step),
        (
            "the public call, closing a middle cut",
            states::middle().remove(0),
            ours::cutter_call_step,
        ),
        (
            "the public call by sweeps, closing a middle cut",
            states::middle().remove(0),
            ours::cutter_call_step_by_sweeps,
        ),
    ];
    for (what, state, call) in calls {
        let Used { deep, written } = on_thread(state, call);
        println!("| {what} | {deep} | {written} |");
    }
}
