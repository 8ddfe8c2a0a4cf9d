//! The C function under comparison: from the archive that the build was given, or a stand-in that runs the Rust itself.

unsafe extern "C" {
    /// A slice goes over as a pointer and then a length.
    fn sends_run(input: *const u8, input_len: usize, output: *mut u8, output_len: usize) -> usize;
}

/// Whether an archive is linked in.
pub const ARCHIVE: bool = cfg!(archive);

/// Calls the C function on a trace and an output.
pub fn archive(trace: &[u8], out: &mut [u8]) -> usize {
    // SAFETY: both slices live through the call, and their lengths go with them. The function writes within `out` alone.
    unsafe { sends_run(trace.as_ptr(), trace.len(), out.as_mut_ptr(), out.len()) }
}

#[cfg(not(archive))]
mod stand_in {
    use std::slice::{from_raw_parts, from_raw_parts_mut};

    /// # Safety
    /// Both pointers and lengths are those of slices that live through the call.
    #[unsafe(no_mangle)]
    unsafe extern "C" fn sends_run(input: *const u8, input_len: usize, output: *mut u8, output_len: usize) -> usize {
        // SAFETY: as promised by the caller.
        let (trace, out) = unsafe { (from_raw_parts(input, input_len), from_raw_parts_mut(output, output_len)) };
        run::run(trace, out)
    }
}
