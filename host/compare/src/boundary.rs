//! Inputs at the edges of the rules, where a wrong port would show.

/// 1 MiB.
pub const MB: u64 = 1024 * 1024;

/// The numbers at most `reach` away from `center`, as far as they exist.
pub fn around(center: u64, reach: u64) -> impl Iterator<Item = u64> {
    center.saturating_sub(reach)..=center.saturating_add(reach)
}

/// The numbers in order, each once.
pub fn distinct(numbers: impl IntoIterator<Item = u64>) -> Vec<u64> {
    let mut numbers: Vec<u64> = numbers.into_iter().collect();
    numbers.sort_unstable();
    numbers.dedup();
    numbers
}

/// Block sizes inside, at and outside the limits, 4 MiB and 256 MiB, on multiples of 4 MiB and
/// beside them.
pub fn block_sizes() -> Vec<u64> {
    let edges = [
        0,
        2 * MB,
        4 * MB,
        5 * MB,
        6 * MB,
        8 * MB,
        64 * MB,
        252 * MB,
        256 * MB,
        257 * MB,
        260 * MB,
        512 * MB,
        1 << 32,
        1 << 63,
        // the largest multiple of 4 MiB
        u64::MAX - (4 * MB - 1),
        u64::MAX,
    ];
    distinct(edges.into_iter().flat_map(|edge| around(edge, 1)))
}

/// Numbers of open blocks around the seven doublings that the rules allow, and far above.
pub const BLOCK_COUNTS: [u64; 14] = [0, 1, 2, 3, 4, 5, 6, 7, 8, 9, 10, 64, 1 << 32, u64::MAX];

/// Amounts below 2^50 where the text changes its unit or its number of digits, and every tie of
/// every unit.
pub fn text_amounts() -> Vec<u64> {
    const UNITS: [u64; 4] = [1, 1 << 10, 1 << 20, 1 << 30];
    let mut amounts: Vec<u64> = Vec::new();
    for exponent in 0..=5 {
        amounts.extend(around(1 << (10 * exponent), 16));
    }
    for unit in UNITS {
        // The text shows 1024 to 2^20 of these units over 1024, to two places. That is a tie where
        // they are an odd multiple of 128, and it has one more digit from 10, 100 and 1000 on.
        let ties = (1024 + 128..1 << 20).step_by(256);
        let digits = [1024, 10 * 1024, 100 * 1024, 1000 * 1024, 1 << 20];
        for units in ties.chain(digits).flat_map(|units| around(units, 1)) {
            // whole units, and the last amount before the next one
            amounts.extend([units * unit, units * unit + (unit - 1)]);
        }
    }
    amounts.retain(|&amount| amount < 1 << 50);
    distinct(amounts)
}
