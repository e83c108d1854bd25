//! Made-up numbers for the vectors, the tests and the benchmarks, the same on every run.

use crate::image::image;
use crate::lists::{chunks, lists, Order, Orders};
use crate::sizes::{Made, Seed, Sizes, P};

/// A xorshift generator with 64 bits of state, never 0.
pub struct Xorshift(u64);

impl Xorshift {
    pub fn new(start: u64) -> Xorshift {
        let mut generator = Xorshift(start.wrapping_mul(0x9e37_79b9_7f4a_7c15) | 1);
        for _ in 0..8 {
            generator.draw();
        }
        generator
    }

    /// The next 32 bits.
    pub fn draw(&mut self) -> u32 {
        self.0 ^= self.0 << 13;
        self.0 ^= self.0 >> 7;
        self.0 ^= self.0 << 17;
        (self.0 >> 32) as u32
    }

    /// A number below the bound, which is at least 1.
    pub fn below(&mut self, bound: u32) -> u32 {
        self.draw() % bound
    }

    /// A number in low..=high.
    pub fn within(&mut self, low: u32, high: u32) -> u32 {
        let width = u64::from(high) - u64::from(low) + 1;
        low + (u64::from(self.draw()) % width) as u32
    }

    pub fn one_in(&mut self, times: u32) -> bool {
        self.below(times) == 0
    }

    pub fn pick<T: Copy>(&mut self, choices: &[T]) -> T {
        choices[self.below(choices.len() as u32) as usize]
    }

    /// The slice in another order.
    pub fn shuffle<T>(&mut self, slice: &mut [T]) {
        for last in (1..slice.len()).rev() {
            slice.swap(last, self.below(last as u32 + 1) as usize);
        }
    }
}

/// Keys at the edges of what is allowed.
pub const EDGE_KEYS: [u32; 5] = [0, 1, P - 1, P, u32::MAX];

/// h(x) = g(x) = 0: every key has level β.
pub fn zero_seed() -> Seed {
    Seed {
        a: [0; 5],
        b: [0; 5],
    }
}

/// h(x) = g(x) = x, the seed of the document's run.
pub fn identity_seed() -> Seed {
    Seed {
        a: [0, 1, 0, 0, 0],
        b: [0, 1, 0, 0, 0],
    }
}

/// h and g constant: all keys have one level, and homes hardly differ.
pub fn constant_seed(h: u32, g: u32) -> Seed {
    Seed {
        a: [h, 0, 0, 0, 0],
        b: [g, 0, 0, 0, 0],
    }
}

/// h(x) = x^i and g(x) = x^k, both mod p: one number of each is 1.
pub fn power_seed(i: usize, k: usize) -> Seed {
    let mut seed = zero_seed();
    seed.a[i] = 1;
    seed.b[k] = 1;
    seed
}

/// All numbers p−1: the largest sums.
pub fn largest_seed() -> Seed {
    Seed {
        a: [P - 1; 5],
        b: [P - 1; 5],
    }
}

pub fn random_seed(generator: &mut Xorshift) -> Seed {
    let mut number = |_| generator.below(P);
    Seed {
        a: std::array::from_fn(&mut number),
        b: std::array::from_fn(&mut number),
    }
}

/// A random seed but for a0, which is such that h of this key is this number
/// below p.
pub fn seed_with(generator: &mut Xorshift, key: u32, h: u32) -> Seed {
    let mut seed = random_seed(generator);
    seed.a[0] = 0;
    let lacking = u64::from(h) + u64::from(P - seed.h(key));
    seed.a[0] = (lacking % u64::from(P)) as u32;
    seed
}

/// One of the kinds above.
pub fn some_seed(generator: &mut Xorshift) -> Seed {
    match generator.below(6) {
        0 => zero_seed(),
        1 => identity_seed(),
        2 => constant_seed(generator.below(P), generator.below(P)),
        3 => Seed {
            a: [1, 1, 0, 0, 0],
            b: [P - 1; 5],
        },
        _ => random_seed(generator),
    }
}

/// Any order that a table of this version may have, the edges often: hidden,
/// displayed whole, as little displayed as leaves the greatest reserve; the lowest
/// price and the highest.
pub fn some_order(generator: &mut Xorshift, version: u32) -> Order {
    let total = match generator.below(4) {
        0 => 1,
        1 => u32::MAX,
        2 => generator.within(1, 200),
        _ => generator.within(1, u32::MAX),
    };
    let displayed = match generator.below(8) {
        0 | 4 => 0,
        1 => 1,
        5 => total,
        _ => generator.within(0, total),
    };
    let price = if version == 1 {
        0
    } else {
        some_price(generator)
    };
    Order {
        total,
        displayed,
        price,
    }
}

/// Any price of version 2, the edges often.
pub fn some_price(generator: &mut Xorshift) -> u32 {
    match generator.below(6) {
        0 => 1,
        1 => u32::MAX,
        2 => generator.within(1, 200),
        _ => generator.within(1, u32::MAX),
    }
}

/// The seed of a made-up table.
#[derive(Clone, Copy, Debug, PartialEq, Eq)]
pub enum Shape {
    Random,
    /// h is the constant 1: every key has level 1, and one partition has every order.
    Flat,
    /// h is the constant 0: every key has level β.
    Tall,
    /// g is the constant 1: first chunks of all partitions of a level have one home.
    OneHome,
}

impl Shape {
    fn seed(self, generator: &mut Xorshift) -> Seed {
        let mut seed = random_seed(generator);
        match self {
            Shape::Random => {}
            Shape::Flat => seed.a = [1, 0, 0, 0, 0],
            Shape::Tall => seed.a = [0; 5],
            Shape::OneHome => seed.b = [1, 0, 0, 0, 0],
        }
        seed
    }
}

/// The image of `held` made-up orders, at most N, with these version, γ, B and N, in
/// as many blocks as make the chunks `percent` of them.
pub fn sample(sizes: &Sizes, held: u32, percent: u32, shape: Shape) -> Vec<u8> {
    let mut generator = Xorshift::new(u64::from(held));
    let seed = shape.seed(&mut generator);
    let mut book = Orders::new();
    while book.len() < held as usize {
        let order = some_order(&mut generator, sizes.version);
        book.insert(generator.within(1, P - 1), order);
    }
    let mut made = Made {
        sizes: *sizes,
        seed,
    };
    let count = chunks(&made, &lists(&made, &book)).len() as u32;
    made.sizes.blocks = ((count * 100 + percent - 1) / percent).max(made.sizes.beta());
    assert!(made.sizes.allowed(), "{} chunks, {sizes:?}", count);
    image(&made, &book).expect("as many blocks as chunks at least")
}

/// The 64-bit FNV-1a hash.
pub fn fnv_1a(bytes: &[u8]) -> u64 {
    bytes.iter().fold(0xcbf2_9ce4_8422_2325, |hash, &byte| {
        (hash ^ u64::from(byte)).wrapping_mul(0x0000_0100_0000_01b3)
    })
}
