//! The calls of the uplink's library, as uplink.h has them.

use crate::model::{Encoded, Planned};

/// The calls of one build. Encode carries out all steps.
pub struct Build {
    pub plan: fn(table: &[u16], plan: &mut [u32], work: &mut [u64]) -> Planned,
    pub encode: fn(
        plan: &[u32],
        size: usize,
        information: &[u8],
        block: &mut [u8],
        scratch: &mut [u8],
    ) -> Encoded,
}

/// A build, by the name of its library and those of its calls.
macro_rules! build {
    ($build:ident, $library:literal, $plan:ident, $encode:ident) => {
        #[link(name = $library, kind = "static")]
        extern "C" {
            fn $plan(
                table: *const u16,
                table_len: usize,
                plan: *mut u32,
                plan_len: usize,
                work: *mut u64,
                work_len: usize,
            ) -> crate::model::Planned;
            fn $encode(
                plan: *const u32,
                plan_len: usize,
                size: usize,
                information: *const u8,
                information_len: usize,
                block: *mut u8,
                block_len: usize,
                scratch: *mut u8,
                scratch_len: usize,
                limit: usize,
            ) -> crate::model::Encoded;
        }
        pub const $build: crate::uplink::Build = crate::uplink::Build {
            plan: |table, plan, work| unsafe {
                $plan(
                    table.as_ptr(),
                    table.len(),
                    plan.as_mut_ptr(),
                    plan.len(),
                    work.as_mut_ptr(),
                    work.len(),
                )
            },
            encode: |plan, size, information, block, scratch| unsafe {
                $encode(
                    plan.as_ptr(),
                    plan.len(),
                    size,
                    information.as_ptr(),
                    information.len(),
                    block.as_mut_ptr(),
                    block.len(),
                    scratch.as_mut_ptr(),
                    scratch.len(),
                    usize::MAX,
                )
            },
        };
    };
}

build!(LIBRARY, "uplink", bs_plan, bs_encode);
