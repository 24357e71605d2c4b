//! The C interface as it is: the nine numbers of an answer, not yet a verdict.
//!
//! [`check`](crate::check) and [`Accepted::recheck`](crate::Accepted::recheck) say what the numbers mean.
//! This module is for who tests the library itself; it is public with the feature `raw`.

/// `dimpsyholt_answer` of the header. Fields that do not apply are 0.
#[repr(C)]
#[derive(Clone, Copy, Debug, Default, PartialEq, Eq)]
pub struct Answer {
    /// 0 refused, 1 accepted, 2 carried.
    pub kind: u32,
    /// The number of a refusal.
    pub number: u32,
    /// The step of a refusal.
    pub step: u32,
    /// The position of a refusal.
    pub position: u32,
    /// 3 or 4 where accepted or carried.
    pub conclusion: u32,
    /// The variable of conclusion 4.
    pub variable: u32,
    /// The value of conclusion 4.
    pub value: i32,
    /// In a recheck, the number of changed rows.
    pub changed: u32,
    /// In a recheck, the number of steps judged.
    pub judged: u32,
}

// as the header asserts it
const _: () = assert!(std::mem::size_of::<Answer>() == 36);

extern "C" {
    /// The version of the library that is linked, as [`VERSION`](crate::VERSION) has it.
    pub fn dimpsyholt_version() -> u32;

    /// The whole check.
    ///
    /// # Safety
    ///
    /// Each pointer must be good for its number of entries, `places` for writing too, and `places` must not
    /// overlap the other tables.
    pub fn dimpsyholt_check(
        model: *const i32,
        model_len: usize,
        log: *const i32,
        log_len: usize,
        places: *mut u32,
        places_len: usize,
    ) -> Answer;

    /// The recheck.
    ///
    /// # Safety
    ///
    /// As for [`dimpsyholt_check`].
    pub fn dimpsyholt_recheck(
        old_model: *const i32,
        old_len: usize,
        new_model: *const i32,
        new_len: usize,
        log: *const i32,
        log_len: usize,
        places: *mut u32,
        places_len: usize,
    ) -> Answer;
}

/// The version of the library that is linked.
pub fn version() -> u32 {
    // SAFETY: it takes nothing and keeps nothing
    unsafe { dimpsyholt_version() }
}

/// The numbers of a check.
pub fn check(model: &[i32], log: &[i32], places: &mut [u32]) -> Answer {
    // SAFETY: the slices are good for their lengths, and `places` is borrowed alone
    unsafe {
        dimpsyholt_check(
            model.as_ptr(),
            model.len(),
            log.as_ptr(),
            log.len(),
            places.as_mut_ptr(),
            places.len(),
        )
    }
}

/// The numbers of a recheck. They say nothing of a log that the old model did not accept.
pub fn recheck(old_model: &[i32], new_model: &[i32], log: &[i32], places: &mut [u32]) -> Answer {
    // SAFETY: the slices are good for their lengths, and `places` is borrowed alone
    unsafe {
        dimpsyholt_recheck(
            old_model.as_ptr(),
            old_model.len(),
            new_model.as_ptr(),
            new_model.len(),
            log.as_ptr(),
            log.len(),
            places.as_mut_ptr(),
            places.len(),
        )
    }
}
