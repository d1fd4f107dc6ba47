//! How much stack a call takes: the bytes below its caller are painted, and then looked at.

use std::ptr;

const PAINT: u8 = 0xa5;
/// Bytes right below the caller that are not painted, since the painter's own frames lie there. A call is taken to use them.
const OWN: usize = 4_096;

/// Bytes of stack that the call takes, or `most` where it takes more. This thread must have them left, and what the call takes.
#[inline(never)]
pub fn taken(most: usize, call: impl FnOnce()) -> usize {
    let here = 0_u8;
    let low = (&raw const here).expose_provenance() - most;
    let area = ptr::with_exposed_provenance_mut::<u8>(low);
    // SAFETY: the bytes are this thread's stack below every frame, and nobody uses them yet.
    unsafe { area.write_bytes(PAINT, most - OWN) };
    call();
    // SAFETY: likewise, and nobody uses them any more.
    let is_touched = |&place: &usize| unsafe { area.add(place).read_volatile() } != PAINT;
    let first = (0..most - OWN).find(is_touched);
    most - first.unwrap_or(most - OWN)
}

#[cfg(test)]
mod tests {
    use std::hint::black_box;

    use super::{OWN, taken};

    #[inline(never)]
    fn frame<const BYTES: usize>() {
        black_box([1_u8; BYTES]);
    }

    #[test]
    fn a_frame_is_found() {
        let bytes = taken(1 << 20, frame::<300_000>);
        assert!((300_000..310_000).contains(&bytes), "{bytes}");
    }

    #[test]
    fn the_least_and_the_most() {
        assert_eq!(taken(1 << 20, || {}), OWN);
        assert_eq!(taken(1 << 16, frame::<300_000>), 1 << 16);
    }
}
