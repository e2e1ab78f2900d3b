//! Rust's own UTF-8 check, for the driver to call.

/// How many bytes from the front are UTF-8.
///
/// # Safety
/// `len` bytes stand at `text`.
#[no_mangle]
pub unsafe extern "C" fn rust_from_utf8(text: *const u8, len: usize) -> usize {
    match core::str::from_utf8(unsafe { core::slice::from_raw_parts(text, len) }) {
        Ok(_) => len,
        Err(error) => error.valid_up_to(),
    }
}
