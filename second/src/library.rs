//! The library under test, behind slices. The only unsafe code of the tool.

use std::ptr;

#[link(name = "vraduceni", kind = "static")]
extern "C" {
    fn vraduceni_judge(
        recipe: *const u8,
        recipe_length: usize,
        policy: *const u8,
        policy_length: usize,
        memory: *mut u8,
        memory_length: usize,
        records: *mut u8,
        records_length: usize,
        report: *mut u8,
        report_length: usize,
        budget: u32,
    ) -> u32;

    fn vraduceni_house_policy(out: *mut u8, length: usize) -> u32;
}

/// An empty buffer may come from C with a null pointer, or with any other.
fn lent(bytes: &[u8], null: bool) -> *const u8 {
    if null && bytes.is_empty() {
        ptr::null()
    } else {
        bytes.as_ptr()
    }
}

fn lent_mut(bytes: &mut [u8], null: bool) -> *mut u8 {
    if null && bytes.is_empty() {
        ptr::null_mut()
    } else {
        bytes.as_mut_ptr()
    }
}

/// The C host's entry; `null` gives empty buffers as null pointers.
pub fn judge_with_null(
    recipe: &[u8],
    policy: &[u8],
    memory: &mut [u8],
    room: &mut [u8],
    report: &mut [u8],
    budget: u32,
    null: bool,
) -> u32 {
    let (memory_length, room_length, report_length) = (memory.len(), room.len(), report.len());
    // SAFETY: pointer and length come from one slice each, the slices do not overlap, and all of them outlive
    // the call. A null pointer only ever comes with length 0.
    unsafe {
        vraduceni_judge(
            lent(recipe, null),
            recipe.len(),
            lent(policy, null),
            policy.len(),
            lent_mut(memory, null),
            memory_length,
            lent_mut(room, null),
            room_length,
            lent_mut(report, null),
            report_length,
            budget,
        )
    }
}

/// The C host's entry, in the shape of the second machine's.
pub fn judge(
    recipe: &[u8],
    policy: &[u8],
    memory: &mut [u8],
    room: &mut [u8],
    report: &mut [u8],
    budget: u32,
) -> u32 {
    judge_with_null(recipe, policy, memory, room, report, budget, false)
}

pub fn house_policy(out: &mut [u8], null: bool) -> u32 {
    let length = out.len();
    // SAFETY: as above.
    unsafe { vraduceni_house_policy(lent_mut(out, null), length) }
}
