//! Random patterns from a seed: the generator splitmix64.

/// An endless run of random patterns. Each stream of a seed is its own run.
pub fn patterns(seed: u64, stream: u64) -> impl Iterator<Item = u64> {
    let start = mixed(seed ^ mixed(stream));
    (1u64..).map(move |turn| mixed(start.wrapping_add(turn.wrapping_mul(0x9e37_79b9_7f4a_7c15))))
}

fn mixed(state: u64) -> u64 {
    let once = (state ^ (state >> 30)).wrapping_mul(0xbf58_476d_1ce4_e5b9);
    let twice = (once ^ (once >> 27)).wrapping_mul(0x94d0_49bb_1331_11eb);
    twice ^ (twice >> 31)
}
