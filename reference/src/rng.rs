//! A small random generator (splitmix64) with a fixed seed.

use std::env;

/// The seed of the benchmark and the tests.
pub const USUAL_SEED: u64 = 8888;

/// The seed of every comparison, unless NADRWYTHOL_SEED gives another (decimal, or hex after 0x).
pub fn seed() -> u64 {
    let Ok(text) = env::var("NADRWYTHOL_SEED") else {
        return USUAL_SEED;
    };
    let parsed = match text.strip_prefix("0x") {
        Some(hex) => u64::from_str_radix(hex, 16),
        None => text.parse(),
    };
    parsed.unwrap_or_else(|_| panic!("NADRWYTHOL_SEED={text}: not a number"))
}

/// `usual` random rounds, times NADRWYTHOL_MORE.
pub fn rounds(usual: u64) -> u64 {
    let more = match env::var("NADRWYTHOL_MORE") {
        Err(_) => 1,
        Ok(text) => match text.parse::<u64>() {
            Ok(more) => more,
            Err(_) => panic!("NADRWYTHOL_MORE={text}: not a number"),
        },
    };
    usual * more
}

pub struct Rng(u64);

impl Rng {
    /// The generator of one case: it depends on the seed and the case alone.
    pub fn of_case(seed: u64, case: u64) -> Rng {
        let mut rng = Rng(seed ^ case.wrapping_mul(0xD1B5_4A32_D192_ED03));
        rng.u64();
        rng
    }

    pub fn u64(&mut self) -> u64 {
        self.0 = self.0.wrapping_add(0x9E37_79B9_7F4A_7C15);
        let mut z = self.0;
        z = (z ^ (z >> 30)).wrapping_mul(0xBF58_476D_1CE4_E5B9);
        z = (z ^ (z >> 27)).wrapping_mul(0x94D0_49BB_1331_11EB);
        z ^ (z >> 31)
    }

    pub fn u32(&mut self) -> u32 {
        (self.u64() >> 32) as u32
    }

    pub fn u16(&mut self) -> u16 {
        (self.u64() >> 48) as u16
    }

    /// A number below `bound`, which is not 0.
    pub fn below(&mut self, bound: u64) -> u64 {
        ((u128::from(self.u64()) * u128::from(bound)) >> 64) as u64
    }

    /// True once in `n` times.
    pub fn one_in(&mut self, n: u64) -> bool {
        self.below(n) == 0
    }

    pub fn pick<T: Copy>(&mut self, from: &[T]) -> T {
        from[self.below(from.len() as u64) as usize]
    }
}
