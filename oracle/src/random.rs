//! A generator of numbers that depends on its seed alone, and of floats at the edges.

/// The one pattern that stands for every NaN when answers are compared.
pub const NAN: u64 = 0x7FF8_0000_0000_0000;

/// The sign bit of a pattern.
pub const SIGN: u64 = 1 << 63;

/// The patterns at which a float's class, or a rule of docs/SCOPE.md, changes.
pub const SPECIAL: [u64; 40] = [
    0x0000_0000_0000_0000, // 0
    0x8000_0000_0000_0000, // -0
    0x0000_0000_0000_0001, // 2^-1074, the least subnormal
    0x8000_0000_0000_0001,
    0x0000_0000_0000_0002,
    0x000F_FFFF_FFFF_FFFF, // the largest subnormal
    0x800F_FFFF_FFFF_FFFF,
    0x0010_0000_0000_0000, // 2^-1022, the least normal
    0x8010_0000_0000_0000,
    0x3FF0_0000_0000_0000, // 1
    0xBFF0_0000_0000_0000,
    0x4000_0000_0000_0000, // 2
    0x4010_0000_0000_0000, // 4
    0x4008_0000_0000_0000, // 3
    0x4018_0000_0000_0000, // 6
    0x4022_0000_0000_0000, // 9
    0x3FE0_0000_0000_0000, // 1/2
    0x3FA9_9999_9999_999A, // 0.05
    0x3F50_0000_0000_0000, // 2^-10
    0xBF50_0000_0000_0000,
    0x3E11_2E0B_E826_D695, // 1e-9
    0x4056_8000_0000_0000, // 90
    0xC056_8000_0000_0000,
    0x41CD_CD65_0000_0000, // 1e9
    0x1E60_0000_0000_0000, // 2^-537, the root of 2^-1074
    0x5FE0_0000_0000_0000, // 2^511
    0x5FF0_0000_0000_0000, // 2^512, whose square overflows
    0x7FE0_0000_0000_0000, // 2^1023
    0x7FEF_FFFF_FFFF_FFFF, // the largest finite
    0xFFEF_FFFF_FFFF_FFFF,
    0x7FF0_0000_0000_0000, // infinity
    0xFFF0_0000_0000_0000,
    0x7FF8_0000_0000_0000, // quiet NaNs of both signs
    0xFFF8_0000_0000_0000,
    0x7FF8_0000_0000_0001,
    0xFFF8_0000_0000_0001,
    0x7FF0_0000_0000_0001, // signalling NaNs of both signs
    0xFFF0_0000_0000_0001,
    0x7FFF_FFFF_FFFF_FFFF, // the last patterns of each sign
    0xFFFF_FFFF_FFFF_FFFF,
];

/// xoshiro256**, seeded by splitmix64.
pub struct Random([u64; 4]);

impl Random {
    /// The stream of a seed and a name, so that each service's inputs depend on no other's.
    pub fn new(seed: u64, stream: &str) -> Self {
        let mut state = stream.bytes().fold(seed, |h, b| {
            (h ^ u64::from(b)).wrapping_mul(0x0000_0100_0000_01B3)
        });
        Self(std::array::from_fn(|_| {
            state = state.wrapping_add(0x9E37_79B9_7F4A_7C15);
            let z = (state ^ (state >> 30)).wrapping_mul(0xBF58_476D_1CE4_E5B9);
            let z = (z ^ (z >> 27)).wrapping_mul(0x94D0_49BB_1331_11EB);
            z ^ (z >> 31)
        }))
    }

    /// Sixty-four random bits.
    pub fn bits(&mut self) -> u64 {
        let s = &mut self.0;
        let out = s[1].wrapping_mul(5).rotate_left(7).wrapping_mul(9);
        let t = s[1] << 17;
        s[2] ^= s[0];
        s[3] ^= s[1];
        s[1] ^= s[2];
        s[0] ^= s[3];
        s[2] ^= t;
        s[3] = s[3].rotate_left(45);
        out
    }

    /// A number below n.
    pub fn below(&mut self, n: u64) -> u64 {
        ((u128::from(self.bits()) * u128::from(n)) >> 64) as u64
    }

    /// A whole number from low to high, both reached.
    pub fn between(&mut self, low: i32, high: i32) -> i32 {
        low + self.below((high - low + 1) as u64) as i32
    }

    /// A place below n.
    pub fn place(&mut self, n: usize) -> usize {
        self.below(n as u64) as usize
    }

    /// One of the given.
    pub fn pick<T: Copy>(&mut self, of: &[T]) -> T {
        of[self.place(of.len())]
    }

    /// A float from -1 to 1.
    pub fn unit(&mut self) -> f64 {
        (self.bits() >> 11) as f64 / (1u64 << 52) as f64 - 1.0
    }

    /// A float of any class: edges, their neighbours, subnormals, NaNs with payloads, plain ones.
    pub fn pattern(&mut self) -> u64 {
        match self.below(8) {
            0 => self.pick(&SPECIAL),
            1 => self
                .pick(&SPECIAL)
                .wrapping_add_signed(i64::from(self.between(-3, 3))),
            2 => self.subnormal() | (self.bits() & SIGN),
            3 => 0x7FF0_0000_0000_0000 | self.bits() >> 12 | (self.bits() & SIGN),
            4 | 5 => self.ordinary().to_bits(),
            _ => self.bits(),
        }
    }

    /// The float of `pattern`.
    pub fn float(&mut self) -> f64 {
        f64::from_bits(self.pattern())
    }

    /// A float of ordinary size.
    pub fn ordinary(&mut self) -> f64 {
        self.unit() * exp2(self.between(-12, 34))
    }

    /// The pattern of a subnormal, or of 0, of any length.
    pub fn subnormal(&mut self) -> u64 {
        self.bits() >> self.between(12, 63)
    }
}

/// 2 to the power e, from -1074 to 1023.
pub fn exp2(e: i32) -> f64 {
    if e >= -1022 {
        f64::from_bits(((e + 1023) as u64) << 52)
    } else {
        f64::from_bits(1 << (e + 1074))
    }
}

/// The bits of x, one pattern for every NaN.
pub fn pattern(x: f64) -> u64 {
    if x.is_nan() {
        NAN
    } else {
        x.to_bits()
    }
}
