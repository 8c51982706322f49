//! Numbers to try.

/// Numbers at and beside every limit and every width.
pub fn wild() -> Vec<u64> {
    let mut numbers: Vec<u64> = (0..=10).collect();
    for limit in [16, 24, 64, 128, 255, 512, 528, 1024, 7168] {
        numbers.extend([limit - 1, limit, limit + 1]);
    }
    for width in [16, 31, 32, 33, 63] {
        let power = 1 << width;
        numbers.extend([power - 1, power, power + 1]);
    }
    numbers.extend([65_534, u64::MAX - 1, u64::MAX]);
    // The numbers of the layouts, with a bit more at each width.
    for width in [8, 16, 32, 63] {
        numbers.extend([(1 << width) + 4, (1 << width) + 5]);
    }
    numbers
}
