// The border between C and the Rust machines: the five buffers become slices, and nothing else happens here. Each machine takes
// this file in and says what its entry is called.

/// A C buffer as a slice; an empty one may come as NULL.
unsafe fn lent<'a>(at: *const u8, len: usize) -> &'a [u8] {
    if len == 0 { &[] } else { unsafe { core::slice::from_raw_parts(at, len) } }
}

unsafe fn lent_mut<'a>(at: *mut u8, len: usize) -> &'a mut [u8] {
    if len == 0 { &mut [] } else { unsafe { core::slice::from_raw_parts_mut(at, len) } }
}

macro_rules! c_entry {
    ($name:ident, $judge:path) => {
        /// # Safety
        /// Each pointer leads to as many bytes as the length beside it says, for the
        /// time of the call, and the buffers do not overlap.
        #[unsafe(no_mangle)]
        pub unsafe extern "C" fn $name(
            recipe: *const u8, recipe_len: usize,
            policy: *const u8, policy_len: usize,
            memory: *mut u8, memory_len: usize,
            records: *mut u8, records_len: usize,
            report: *mut u8, report_len: usize,
            budget: u32,
        ) -> u32 {
            let (recipe, policy, memory, records, report) = unsafe {
                (
                    lent(recipe, recipe_len),
                    lent(policy, policy_len),
                    lent_mut(memory, memory_len),
                    lent_mut(records, records_len),
                    lent_mut(report, report_len),
                )
            };
            $judge(recipe, policy, memory, records, report, budget)
        }
    };
}
