//! The proved library's calls, as include/javendriky.h tells them, with Rust's lists and answers.

use crate::c_calls::{BUDGET_ENDED, REFUSED};
pub use crate::c_calls::VERSION; // of the calls declared here: no other library must be called
use crate::checker::Tried;
use crate::distance::Nearest;
use crate::event::Event;
use crate::figures::Length;
use crate::wear::Wear;
use crate::yard::{Answer, Refusal};

/// The calls as C sees them.
pub mod raw {
    extern "C" {
        pub fn javendriky_version() -> u32;
        pub fn javendriky_plan(
            parents: *const u8, parents_len: usize, pebbles: *const u8, pebbles_len: usize, targets: *const u8, targets_len: usize,
            depths: *const u8, depths_len: usize, plan: *mut u8, plan_len: usize,
        ) -> u32;
        pub fn javendriky_plan_parts(
            parents: *const u8, parents_len: usize, pebbles: *const u8, pebbles_len: usize, targets: *const u8, targets_len: usize,
            depths: *const u8, depths_len: usize, plan: *mut u8, plan_len: usize, parts: *mut u8, parts_len: usize,
        ) -> u32;
        pub fn javendriky_openings(
            parents: *const u8, parents_len: usize, pebbles: *const u8, pebbles_len: usize, targets: *const u8, targets_len: usize,
            depths: *const u8, depths_len: usize, list: *mut u8, list_len: usize,
        ) -> u32;
        pub fn javendriky_test_yard(
            parents: *const u8, parents_len: usize, pebbles: *const u8, pebbles_len: usize, targets: *const u8, targets_len: usize,
            depths: *const u8, depths_len: usize,
        ) -> u32;
        pub fn javendriky_demands(
            parents: *const u8, parents_len: usize, pebbles: *const u8, pebbles_len: usize, targets: *const u8, targets_len: usize,
            depths: *const u8, depths_len: usize, list: *mut i16, list_len: usize,
        ) -> u32;
        pub fn javendriky_length_bound(
            parents: *const u8, parents_len: usize, pebbles: *const u8, pebbles_len: usize, targets: *const u8, targets_len: usize,
            depths: *const u8, depths_len: usize, bytes: *mut u32,
        ) -> u32;
        pub fn javendriky_longest_plan(n: usize) -> u32;
        pub fn javendriky_displaced(
            parents: *const u8, parents_len: usize, pebbles: *const u8, pebbles_len: usize, targets: *const u8, targets_len: usize,
            depths: *const u8, depths_len: usize,
        ) -> u32;
        pub fn javendriky_pebble_arrives(
            parents: *const u8, parents_len: usize, pebbles: *mut u8, pebbles_len: usize, targets: *mut u8, targets_len: usize,
            depths: *const u8, depths_len: usize, demands: *mut i16, demands_len: usize, node: usize,
        ) -> u32;
        pub fn javendriky_pebble_leaves(
            parents: *const u8, parents_len: usize, pebbles: *mut u8, pebbles_len: usize, targets: *mut u8, targets_len: usize,
            depths: *const u8, depths_len: usize, demands: *mut i16, demands_len: usize, node: usize,
        ) -> u32;
        pub fn javendriky_target_set(
            parents: *const u8, parents_len: usize, pebbles: *mut u8, pebbles_len: usize, targets: *mut u8, targets_len: usize,
            depths: *const u8, depths_len: usize, demands: *mut i16, demands_len: usize, node: usize,
        ) -> u32;
        pub fn javendriky_target_cleared(
            parents: *const u8, parents_len: usize, pebbles: *mut u8, pebbles_len: usize, targets: *mut u8, targets_len: usize,
            depths: *const u8, depths_len: usize, demands: *mut i16, demands_len: usize, node: usize,
        ) -> u32;
        pub fn javendriky_nearest(
            parents: *const u8, parents_len: usize, pebbles: *const u8, pebbles_len: usize, targets: *const u8, targets_len: usize,
            depths: *const u8, depths_len: usize, node: usize, distance: *mut u32,
        ) -> u32;
        pub fn javendriky_reach(
            parents: *const u8, parents_len: usize, pebbles: *const u8, pebbles_len: usize, targets: *const u8, targets_len: usize,
            depths: *const u8, depths_len: usize, list: *mut u8, list_len: usize, node: usize, reach: u16,
        ) -> u32;
        pub fn javendriky_push(
            parents: *const u8, parents_len: usize, pebbles: *mut u8, pebbles_len: usize, targets: *const u8, targets_len: usize,
            depths: *const u8, depths_len: usize, from: usize, to: usize,
        ) -> u32;
        pub fn javendriky_check(
            parents: *const u8, parents_len: usize, pebbles: *const u8, pebbles_len: usize, targets: *const u8, targets_len: usize,
            depths: *const u8, depths_len: usize, plan: *const u8, plan_len: usize,
        ) -> u32;
        pub fn javendriky_excess(
            parents: *const u8, parents_len: usize, pebbles: *const u8, pebbles_len: usize, targets: *const u8, targets_len: usize,
            depths: *const u8, depths_len: usize, plan: *const u8, plan_len: usize,
        ) -> u32;
        pub fn javendriky_wear(
            parents: *const u8, parents_len: usize, pebbles: *const u8, pebbles_len: usize, targets: *const u8, targets_len: usize,
            depths: *const u8, depths_len: usize, plan: *const u8, plan_len: usize, width: u32, first: *mut u32, edge: *mut u32,
        ) -> u32;
        pub fn javendriky_trial(
            parents: *const u8, parents_len: usize, pebbles: *mut u8, pebbles_len: usize, targets: *const u8, targets_len: usize,
            depths: *const u8, depths_len: usize, plan: *const u8, plan_len: usize, budget: u16,
        ) -> u32;
        pub fn javendriky_step(
            parents: *const u8, parents_len: usize, pebbles: *mut u8, pebbles_len: usize, targets: *const u8, targets_len: usize,
            depths: *const u8, depths_len: usize, plan: *const u8, plan_len: usize, registers: *mut u8, registers_len: usize, failed: u8,
        ) -> u32;
        pub fn javendriky_read_sheet(
            sheet: *const u8, sheet_len: usize,
            parents: *mut u8, parents_len: usize, pebbles: *mut u8, pebbles_len: usize, targets: *mut u8, targets_len: usize,
            depths: *mut u8, depths_len: usize,
        ) -> u32;
        pub fn javendriky_write_sheet(
            parents: *const u8, parents_len: usize, pebbles: *const u8, pebbles_len: usize, targets: *const u8, targets_len: usize,
            depths: *const u8, depths_len: usize, sheet: *mut u8, sheet_len: usize,
        ) -> u32;
    }
}

/// The number that a call answers, taken apart.
pub fn answer(number: u32) -> Answer<u32> {
    match number / REFUSED {
        0 => Ok(number),
        refusal => Err(Refusal { number: refusal, place: number % REFUSED }),
    }
}

/// An answer that has no value is the number 0.
pub fn done(number: u32) -> Answer<()> {
    answer(number).map(|value| assert_eq!(value, 0, "a call without a value answers 0"))
}

/// The version of the library that was linked.
pub fn version() -> u32 {
    // SAFETY: it takes nothing.
    unsafe { raw::javendriky_version() }
}

// Each call below gets lists that are borrowed while it runs, written ones by no one else: that is
// all that the header asks for.

pub fn plan(parents: &[u8], pebbles: &[u8], targets: &[u8], depths: &[u8], plan: &mut [u8]) -> Answer<u32> {
    answer(unsafe {
        raw::javendriky_plan(
            parents.as_ptr(), parents.len(), pebbles.as_ptr(), pebbles.len(), targets.as_ptr(), targets.len(),
            depths.as_ptr(), depths.len(), plan.as_mut_ptr(), plan.len(),
        )
    })
}

pub fn plan_parts(parents: &[u8], pebbles: &[u8], targets: &[u8], depths: &[u8], plan: &mut [u8], parts: &mut [u8]) -> Answer<u32> {
    answer(unsafe {
        raw::javendriky_plan_parts(
            parents.as_ptr(), parents.len(), pebbles.as_ptr(), pebbles.len(), targets.as_ptr(), targets.len(),
            depths.as_ptr(), depths.len(), plan.as_mut_ptr(), plan.len(), parts.as_mut_ptr(), parts.len(),
        )
    })
}

pub fn openings(parents: &[u8], pebbles: &[u8], targets: &[u8], depths: &[u8], list: &mut [u8]) -> Answer<u32> {
    answer(unsafe {
        raw::javendriky_openings(
            parents.as_ptr(), parents.len(), pebbles.as_ptr(), pebbles.len(), targets.as_ptr(), targets.len(),
            depths.as_ptr(), depths.len(), list.as_mut_ptr(), list.len(),
        )
    })
}

pub fn test_yard(parents: &[u8], pebbles: &[u8], targets: &[u8], depths: &[u8]) -> Answer<()> {
    done(unsafe {
        raw::javendriky_test_yard(
            parents.as_ptr(), parents.len(), pebbles.as_ptr(), pebbles.len(), targets.as_ptr(), targets.len(),
            depths.as_ptr(), depths.len(),
        )
    })
}

pub fn demands(parents: &[u8], pebbles: &[u8], targets: &[u8], depths: &[u8], list: &mut [i16]) -> Answer<()> {
    done(unsafe {
        raw::javendriky_demands(
            parents.as_ptr(), parents.len(), pebbles.as_ptr(), pebbles.len(), targets.as_ptr(), targets.len(),
            depths.as_ptr(), depths.len(), list.as_mut_ptr(), list.len(),
        )
    })
}

/// The bytes are written through the pointer, and a refusal leaves what is there.
pub fn length_bound(parents: &[u8], pebbles: &[u8], targets: &[u8], depths: &[u8], bytes: &mut u32) -> Answer<Length> {
    let moves = answer(unsafe {
        raw::javendriky_length_bound(
            parents.as_ptr(), parents.len(), pebbles.as_ptr(), pebbles.len(), targets.as_ptr(), targets.len(),
            depths.as_ptr(), depths.len(), bytes,
        )
    });
    moves.map(|moves| Length { moves, bytes: *bytes })
}

pub fn longest_plan(n: usize) -> Answer<u32> {
    // SAFETY: it takes a number.
    answer(unsafe { raw::javendriky_longest_plan(n) })
}

pub fn displaced(parents: &[u8], pebbles: &[u8], targets: &[u8], depths: &[u8]) -> Answer<u32> {
    answer(unsafe {
        raw::javendriky_displaced(
            parents.as_ptr(), parents.len(), pebbles.as_ptr(), pebbles.len(), targets.as_ptr(), targets.len(),
            depths.as_ptr(), depths.len(),
        )
    })
}

/// Each event is a call of its own.
pub fn event(
    parents: &[u8], pebbles: &mut [u8], targets: &mut [u8], depths: &[u8], demands: &mut [i16], event: Event, node: usize,
) -> Answer<()> {
    let call = match event {
        Event::PebbleArrives => raw::javendriky_pebble_arrives,
        Event::PebbleLeaves => raw::javendriky_pebble_leaves,
        Event::TargetSet => raw::javendriky_target_set,
        Event::TargetCleared => raw::javendriky_target_cleared,
    };
    done(unsafe {
        call(
            parents.as_ptr(), parents.len(), pebbles.as_mut_ptr(), pebbles.len(), targets.as_mut_ptr(), targets.len(),
            depths.as_ptr(), depths.len(), demands.as_mut_ptr(), demands.len(), node,
        )
    })
}

/// The distance is written through the pointer, and a refusal leaves what is there.
pub fn nearest(parents: &[u8], pebbles: &[u8], targets: &[u8], depths: &[u8], node: usize, distance: &mut u32) -> Answer<Nearest> {
    let nearest = answer(unsafe {
        raw::javendriky_nearest(
            parents.as_ptr(), parents.len(), pebbles.as_ptr(), pebbles.len(), targets.as_ptr(), targets.len(),
            depths.as_ptr(), depths.len(), node, distance,
        )
    });
    nearest.map(|node| Nearest { node, distance: *distance })
}

pub fn reach(parents: &[u8], pebbles: &[u8], targets: &[u8], depths: &[u8], list: &mut [u8], node: usize, reach: u16) -> Answer<u32> {
    answer(unsafe {
        raw::javendriky_reach(
            parents.as_ptr(), parents.len(), pebbles.as_ptr(), pebbles.len(), targets.as_ptr(), targets.len(),
            depths.as_ptr(), depths.len(), list.as_mut_ptr(), list.len(), node, reach,
        )
    })
}

pub fn push(parents: &[u8], pebbles: &mut [u8], targets: &[u8], depths: &[u8], from: usize, to: usize) -> Answer<()> {
    done(unsafe {
        raw::javendriky_push(
            parents.as_ptr(), parents.len(), pebbles.as_mut_ptr(), pebbles.len(), targets.as_ptr(), targets.len(),
            depths.as_ptr(), depths.len(), from, to,
        )
    })
}

pub fn check(parents: &[u8], pebbles: &[u8], targets: &[u8], depths: &[u8], plan: &[u8]) -> Answer<()> {
    done(unsafe {
        raw::javendriky_check(
            parents.as_ptr(), parents.len(), pebbles.as_ptr(), pebbles.len(), targets.as_ptr(), targets.len(),
            depths.as_ptr(), depths.len(), plan.as_ptr(), plan.len(),
        )
    })
}

pub fn excess(parents: &[u8], pebbles: &[u8], targets: &[u8], depths: &[u8], plan: &[u8]) -> Answer<u32> {
    answer(unsafe {
        raw::javendriky_excess(
            parents.as_ptr(), parents.len(), pebbles.as_ptr(), pebbles.len(), targets.as_ptr(), targets.len(),
            depths.as_ptr(), depths.len(), plan.as_ptr(), plan.len(),
        )
    })
}

/// First move and edge are written through the pointers, and a refusal leaves what is there.
pub fn wear(
    parents: &[u8], pebbles: &[u8], targets: &[u8], depths: &[u8], plan: &[u8], width: u32, [first, edge]: [&mut u32; 2],
) -> Answer<Wear> {
    let crossings = answer(unsafe {
        raw::javendriky_wear(
            parents.as_ptr(), parents.len(), pebbles.as_ptr(), pebbles.len(), targets.as_ptr(), targets.len(),
            depths.as_ptr(), depths.len(), plan.as_ptr(), plan.len(), width, first, edge,
        )
    });
    crossings.map(|crossings| Wear { crossings, first: *first, edge: *edge })
}

pub fn trial(parents: &[u8], pebbles: &mut [u8], targets: &[u8], depths: &[u8], plan: &[u8], budget: u16) -> Answer<Tried> {
    let tried = |value| Tried { taken: value % BUDGET_ENDED, budget_ended: value >= BUDGET_ENDED };
    answer(unsafe {
        raw::javendriky_trial(
            parents.as_ptr(), parents.len(), pebbles.as_mut_ptr(), pebbles.len(), targets.as_ptr(), targets.len(),
            depths.as_ptr(), depths.len(), plan.as_ptr(), plan.len(), budget,
        )
    })
    .map(tried)
}

/// 1 if the line is raised.
pub fn step(
    parents: &[u8], pebbles: &mut [u8], targets: &[u8], depths: &[u8], plan: &[u8], registers: &mut [u8], failed: u8,
) -> Answer<u32> {
    answer(unsafe {
        raw::javendriky_step(
            parents.as_ptr(), parents.len(), pebbles.as_mut_ptr(), pebbles.len(), targets.as_ptr(), targets.len(),
            depths.as_ptr(), depths.len(), plan.as_ptr(), plan.len(), registers.as_mut_ptr(), registers.len(), failed,
        )
    })
}

pub fn read_sheet(sheet: &[u8], parents: &mut [u8], pebbles: &mut [u8], targets: &mut [u8], depths: &mut [u8]) -> Answer<u32> {
    answer(unsafe {
        raw::javendriky_read_sheet(
            sheet.as_ptr(), sheet.len(),
            parents.as_mut_ptr(), parents.len(), pebbles.as_mut_ptr(), pebbles.len(), targets.as_mut_ptr(), targets.len(),
            depths.as_mut_ptr(), depths.len(),
        )
    })
}

pub fn write_sheet(parents: &[u8], pebbles: &[u8], targets: &[u8], depths: &[u8], sheet: &mut [u8]) -> Answer<u32> {
    answer(unsafe {
        raw::javendriky_write_sheet(
            parents.as_ptr(), parents.len(), pebbles.as_ptr(), pebbles.len(), targets.as_ptr(), targets.len(),
            depths.as_ptr(), depths.len(), sheet.as_mut_ptr(), sheet.len(),
        )
    })
}
