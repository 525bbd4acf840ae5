//! serde_json behind C functions; 0 where the text is refused.

use serde_json::Value;
use std::slice::from_raw_parts;

#[no_mangle]
unsafe extern "C" fn peer_parse(p: *const u8, n: usize) -> usize {
    serde_json::from_slice::<Value>(from_raw_parts(p, n)).is_ok() as usize
}

#[no_mangle]
unsafe extern "C" fn peer_round(p: *const u8, n: usize) -> usize {
    match serde_json::from_slice::<Value>(from_raw_parts(p, n)) {
        Ok(value) => serde_json::to_vec(&value).map_or(0, |text| text.len()),
        Err(_) => 0,
    }
}
