//! An earlier static library, its functions renamed; `tools/benchmark --former` does that.

use crate::Side;

pub const SIDE: Side = Side {
    compile,
    #[cfg(not(former_texts))]
    texts: None,
    #[cfg(former_texts)]
    texts: Some((texts::convert, texts::print)),
    #[cfg(not(former_why))]
    ask: None,
    #[cfg(former_why)]
    ask: Some(why::ask),
};

extern "C" {
    fn rigbanut_compile_formerly(
        manifest: *const u8,
        manifest_length: usize,
        device: *const u8,
        device_length: usize,
        limit: u16,
        out: *mut u8,
        out_length: usize,
        work: *mut u8,
        work_length: usize,
    ) -> u64;
}

fn compile(manifest: &[u8], device: &[u8], limit: u16, out: &mut [u8], work: &mut [u8]) -> u64 {
    // SAFETY: as in bindings/rigbanut.rs.
    unsafe {
        rigbanut_compile_formerly(
            manifest.as_ptr(),
            manifest.len(),
            device.as_ptr(),
            device.len(),
            limit,
            out.as_mut_ptr(),
            out.len(),
            work.as_mut_ptr(),
            work.len(),
        )
    }
}

#[cfg(former_texts)]
mod texts {
    type Call = unsafe extern "C" fn(*const u8, usize, *mut u8, usize, *mut u8, usize) -> u64;

    extern "C" {
        fn rigbanut_convert_formerly(
            text: *const u8,
            length: usize,
            out: *mut u8,
            out_length: usize,
            work: *mut u8,
            work_length: usize,
        ) -> u64;
        fn rigbanut_print_formerly(
            manifest: *const u8,
            length: usize,
            out: *mut u8,
            out_length: usize,
            work: *mut u8,
            work_length: usize,
        ) -> u64;
    }

    fn call(function: Call, given: &[u8], out: &mut [u8], work: &mut [u8]) -> u64 {
        // SAFETY: as in bindings/rigbanut.rs.
        unsafe {
            function(
                given.as_ptr(),
                given.len(),
                out.as_mut_ptr(),
                out.len(),
                work.as_mut_ptr(),
                work.len(),
            )
        }
    }

    pub fn convert(text: &[u8], out: &mut [u8], work: &mut [u8]) -> u64 {
        call(rigbanut_convert_formerly, text, out, work)
    }

    pub fn print(manifest: &[u8], out: &mut [u8], work: &mut [u8]) -> u64 {
        call(rigbanut_print_formerly, manifest, out, work)
    }
}

#[cfg(former_why)]
mod why {
    use crate::why_case::WhyCase;

    extern "C" {
        fn rigbanut_why_formerly(
            manifest: *const u8,
            manifest_length: usize,
            device: *const u8,
            device_length: usize,
            kind: *const u8,
            kind_length: usize,
            title: *const u8,
            title_length: usize,
            attribute: *const u8,
            attribute_length: usize,
            label: u8,
            work: *mut u8,
            work_length: usize,
        ) -> u64;
    }

    pub fn ask(case: &WhyCase, work: &mut [u8]) -> u64 {
        // SAFETY: as in bindings/rigbanut.rs.
        unsafe {
            rigbanut_why_formerly(
                case.manifest.as_ptr(),
                case.manifest.len(),
                case.device.as_ptr(),
                case.device.len(),
                case.kind.as_ptr(),
                case.kind.len(),
                case.title.as_ptr(),
                case.title.len(),
                case.attribute.as_ptr(),
                case.attribute.len(),
                case.label,
                work.as_mut_ptr(),
                work.len(),
            )
        }
    }
}
