//! A question, asked of the static library and of the program made apart: each answer as the word that the library gives.

use crate::why::Why;
use crate::why_case::WhyCase;

extern "C" {
    fn rigbanut_why(
        manifest: *const u8,
        manifest_length: usize,
        device: *const u8,
        device_length: usize,
        kind: *const u8,
        kind_length: usize,
        title: *const u8,
        title_length: usize,
        attribute: *const u8,
        attribute_length: usize,
        label: u8,
        work: *mut u8,
        work_length: usize,
    ) -> u64;
}

/// The library's answer. The memory's length is that of `work`, and not the case's.
pub fn library(case: &WhyCase, work: &mut [u8]) -> u64 {
    // SAFETY: as in bindings/rigbanut.rs.
    unsafe {
        rigbanut_why(
            case.manifest.as_ptr(),
            case.manifest.len(),
            case.device.as_ptr(),
            case.device.len(),
            case.kind.as_ptr(),
            case.kind.len(),
            case.title.as_ptr(),
            case.title.len(),
            case.attribute.as_ptr(),
            case.attribute.len(),
            case.label,
            work.as_mut_ptr(),
            work.len(),
        )
    }
}

/// Among them: part * 65,536 + place. Not among them: 0. Refused: number * 2^32 + place.
pub fn word(answer: &Why) -> u64 {
    match answer {
        Why::Among { part, place } => (*part as u64) << 16 | u64::from(*place),
        Why::NotAmong => 0,
        Why::Refused(refusal) => (refusal.reason as u64) << 32 | u64::from(refusal.place),
    }
}
