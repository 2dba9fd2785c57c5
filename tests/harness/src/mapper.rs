//! The call from the mapper's two lists to a plan file as Rust sees it (include/mapper.h).

use reference::csv::Refusal;

/// What the call answers.
#[repr(C)]
#[derive(Clone, Copy, Debug, PartialEq, Eq)]
pub struct Mapped {
    pub refusal: u32,
    pub list: u32,
    pub row: usize,
    pub length: usize,
}

pub mod raw {
    use super::Mapped;

    extern "C" {
        pub fn planner_map_csv(
            sites: *const u8,
            sites_length: usize,
            zones: *const u8,
            zones_length: usize,
            plan: *mut u8,
            plan_length: usize,
        ) -> Mapped;
    }
}

pub fn map(sites: &[u8], zones: &[u8], plan: &mut [u8]) -> Mapped {
    unsafe {
        raw::planner_map_csv(
            sites.as_ptr(),
            sites.len(),
            zones.as_ptr(),
            zones.len(),
            plan.as_mut_ptr(),
            plan.len(),
        )
    }
}

/// A refusal as the call gives it.
pub fn refused(refusal: Refusal) -> Mapped {
    Mapped {
        refusal: refusal.number,
        list: refusal.list,
        row: refusal.row,
        length: 0,
    }
}
