//! Rust's own UTF-8 check behind a C function: the limit that `utf8` is held to.

#[no_mangle]
unsafe extern "C" fn peer_parse(p: *const u8, n: usize) -> usize {
    std::str::from_utf8(std::slice::from_raw_parts(p, n)).is_ok() as usize
}
