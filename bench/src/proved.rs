//! Safe functions around the C interfaces of the proved code.

extern "C" {
    fn lambert_root_bits(b: u64) -> u64;
    fn lambert_four_roots(numbers: *mut f64) -> bool;
    fn lambert_time_bits(b: u64, k: i64, m: u16) -> u64;
    fn lambert_sweep_number(b: u64, m: u16, w: u64) -> u64;
    fn lambert_post(board: *mut u8, board_size: usize, record: *const u8, size: usize) -> u8;
    fn lambert_opm_write(
        answer: *const u8,
        answer_size: usize,
        entry: u64,
        r1_x: u64,
        r1_y: u64,
        r1_z: u64,
        texts: *const u8,
        texts_size: usize,
        out: *mut u8,
        out_size: usize,
    ) -> u64;
    fn lambert_opm_read(message: *const u8, size: usize, state: *mut u8, state_size: usize) -> u8;
}

/// Returns the bits of the square root of the f64 with the bits `b`, or all ones if the root is refused.
pub fn root_bits(b: u64) -> u64 {
    // SAFETY: the function takes and returns a number and has no precondition.
    unsafe { lambert_root_bits(b) }
}

/// Replaces four numbers by their square roots and returns true. If one of them has no root, it changes nothing and
/// returns false.
pub fn four_roots(numbers: &mut [f64; 4]) -> bool {
    // SAFETY: the pointer is to four numbers that live until the call returns. The function reads and writes only
    // these, does not keep the pointer, returns 0 or 1 and has no precondition.
    unsafe { lambert_four_roots(numbers.as_mut_ptr()) }
}

/// Returns the bits of the time at the place `k` with `m` whole revolutions, for the lambda with the bits `b`. If the place
/// is void, returns 7FF8000000000000 in hexadecimal digits plus the number of the reason.
pub fn time_bits(b: u64, k: i64, m: u16) -> u64 {
    // SAFETY: the function takes and returns numbers and has no precondition.
    unsafe { lambert_time_bits(b, k, m) }
}

/// Returns the number of crossings that the sweep lists for the lambda with the bits `b`, `m` whole revolutions and the wanted time
/// with the bits `w`. If there is a ninth crossing, adds 32. If there is none and a station is void, adds 16, 2^8 times the number
/// of the first void station's reason, and 2^32 times its j as a u32.
pub fn sweep_number(b: u64, m: u16, w: u64) -> u64 {
    // SAFETY: the function takes and returns numbers and has no precondition.
    unsafe { lambert_sweep_number(b, m, w) }
}

/// Posts a record to a board. Returns the number of the refusal, or 255 if the board takes the record.
pub fn post(board: &mut [u8], record: &[u8]) -> u8 {
    // SAFETY: a slice is passed as a pointer and its length. Both slices live until the call returns and do not overlap. The function
    // keeps neither of them and has no precondition.
    unsafe { lambert_post(board.as_mut_ptr(), board.len(), record.as_ptr(), record.len()) }
}

/// Writes the orbit message for an entry, counted from 1, with `r1` as the bits of its position. Returns the size
/// of the message, or the number of the refusal, which is below every size.
pub fn opm_write(answer: &[u8], entry: u64, r1: [u64; 3], texts: &[u8], out: &mut [u8]) -> u64 {
    let [x, y, z] = r1;
    let (answer_at, texts_at, out_at) = (answer.as_ptr(), texts.as_ptr(), out.as_mut_ptr());
    // SAFETY: a slice is passed as a pointer and its length. The slices live until the call returns and do not
    // overlap. The function keeps none of them and has no precondition.
    unsafe {
        lambert_opm_write(answer_at, answer.len(), entry, x, y, z, texts_at, texts.len(), out_at, out.len())
    }
}

/// Reads an orbit message and writes the bytes of its six numbers to `state`. Returns 0 or the number of the
/// refusal.
pub fn opm_read(message: &[u8], state: &mut [u8]) -> u8 {
    // SAFETY: as for `opm_write`.
    unsafe { lambert_opm_read(message.as_ptr(), message.len(), state.as_mut_ptr(), state.len()) }
}
