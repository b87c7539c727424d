//! The sum of a slice's bytes, one by one. `run` compiles this file twice: at -O, and at -O with
//! every instruction of the machine at hand (-C target-cpu=native), which brings vector code.

#[inline(never)]
pub fn sum(bytes: &[u8]) -> u64 {
    let mut total = 0u64;
    for &byte in bytes {
        total += byte as u64;
    }
    total
}
