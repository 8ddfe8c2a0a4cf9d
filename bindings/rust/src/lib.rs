//! The proved trace run of the send tables, as a safe function. docs/TRACE.md of the project has the byte form of traces and answers.

unsafe extern "C" {
    fn sends_run(trace: *const u8, trace_len: usize, out: *mut u8, out_len: usize) -> usize;
}

/// Runs a trace and gives the answers, which stand at the front of `out`; the rest of `out` stays as it came.
///
/// Any bytes are a trace, and it always returns. An output under 6 bytes gets nothing; otherwise the last six bytes of the
/// answers are the end record.
pub fn run<'out>(trace: &[u8], out: &'out mut [u8]) -> &'out [u8] {
    // SAFETY: the pointers are those of two slices, which are never null and, one being exclusive, do not overlap; they live through the
    // call, and their lengths go with them. The function is proved to read and write within them alone.
    let written = unsafe { sends_run(trace.as_ptr(), trace.len(), out.as_mut_ptr(), out.len()) };
    &out[..written]
}
