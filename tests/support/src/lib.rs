//! What the tests share: a link and a request as the headers have them, random numbers from a fixed seed, a seed that is
//! printed when a test fails, and counts that must be large enough.

#[repr(C)]
#[derive(Clone, Copy, Debug, PartialEq, Eq, Default)]
pub struct Link {
    pub from: u32,
    pub to: u32,
    pub capacity: u32,
}

/// What a booking or an offer asks for. A latest start that a record leaves open is 1,000,000,000 here.
#[repr(C)]
#[derive(Clone, Copy, Debug, PartialEq, Eq, Default)]
pub struct Request {
    pub from: u32,
    pub to: u32,
    pub bandwidth: u32,
    pub duration: u32,
    pub earliest: u32,
    pub latest: u32,
}

/// A small generator (SplitMix64). The same seed gives the same numbers everywhere.
pub struct Random(u64);

impl Random {
    pub fn new(seed: u64) -> Self {
        Random(seed)
    }

    pub fn next(&mut self) -> u64 {
        self.0 = self.0.wrapping_add(0x9E37_79B9_7F4A_7C15);
        let mut z = self.0;
        z = (z ^ (z >> 30)).wrapping_mul(0xBF58_476D_1CE4_E5B9);
        z = (z ^ (z >> 27)).wrapping_mul(0x94D0_49BB_1331_11EB);
        z ^ (z >> 31)
    }

    /// A number below `n`.
    pub fn below(&mut self, n: u64) -> u64 {
        self.next() % n
    }

    /// A number of low to high, both counted.
    pub fn within(&mut self, low: u64, high: u64) -> u64 {
        low + self.below(high - low + 1)
    }

    /// True once in `n` times.
    pub fn once_in(&mut self, n: u64) -> bool {
        self.below(n) == 0
    }
}

/// Prints its seed if the test panics while it stands.
pub struct Seed(pub u64);

impl Drop for Seed {
    fn drop(&mut self) {
        if std::thread::panicking() {
            println!("failed with seed {:#x}", self.0);
        }
    }
}

/// Asserts that each of these has occurred often enough: what it is, how often it has, and how often it must.
pub fn assert_enough(counts: &[(&str, u32, u32)], seed: u64) {
    for (what, count, least) in counts {
        assert!(count >= least, "{what}: {count} of {least}, seeds from {seed:#x}");
    }
}
