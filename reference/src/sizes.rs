//! Sizes, seed, hashes and levels ("Orders and hashes").

/// p = 2^31 − 1.
pub const P: u32 = 2_147_483_647;

/// The front element's key; it "is no order".
pub const FRONT: u32 = 0;

/// Bytes of the header, of a block's head and of a seed.
pub const HEADER: usize = 53;
pub const BLOCK_HEAD: usize = 8;
pub const SEED: usize = 40;

/// Bytes of a node and of a span's row: "key, total, displayed (4 each)"; other
/// versions than 1 have "key, total, displayed, price, 16 bytes each" (document 02,
/// request A.6).
pub fn row(version: u32) -> usize {
    if version == 1 {
        12
    } else {
        16
    }
}

/// What make is asked for beside the seed: the version, γ, B, N and M.
#[derive(Clone, Copy, Debug, PartialEq, Eq)]
pub struct Sizes {
    /// 1 or 2
    pub version: u32,
    /// γ
    pub gamma: u32,
    /// B, nodes in a block
    pub nodes: u32,
    /// N, most orders
    pub orders: u32,
    /// M, number of blocks
    pub blocks: u32,
}

impl Sizes {
    /// "Make takes the version, 1 or 2, another answering 2" (document 02, request
    /// A.6). γ 2..64, B 2..32, N 1..65,535, M β..65,535.
    pub fn allowed(&self) -> bool {
        // β has a meaning only once γ and N are in range.
        (1..=2).contains(&self.version)
            && (2..=64).contains(&self.gamma)
            && (2..=32).contains(&self.nodes)
            && (1..=65_535).contains(&self.orders)
            && (self.beta()..=65_535).contains(&self.blocks)
    }

    /// "β = 2 + the smallest e ≥ 0 with γ^e ≥ N."
    pub fn beta(&self) -> u32 {
        let mut e = 0;
        let mut power = 1;
        while power < u64::from(self.orders) {
            e += 1;
            power *= u64::from(self.gamma);
        }
        2 + e
    }

    /// Bytes of one block.
    pub fn block_length(&self) -> usize {
        BLOCK_HEAD + row(self.version) * self.nodes as usize
    }

    /// "length of the table in bytes, 53 + M·(8 + 12·B)"; in version 2 "53 + M·(8 +
    /// 16·B)".
    pub fn length(&self) -> usize {
        HEADER + self.blocks as usize * self.block_length()
    }
}

/// a0..a4 and b0..b4, "each four bytes big-endian and below p".
#[derive(Clone, Copy, Debug, PartialEq, Eq)]
pub struct Seed {
    pub a: [u32; 5],
    pub b: [u32; 5],
}

impl Seed {
    /// "Is the seed 40 bytes, each number below p?" None is "no".
    pub fn from_bytes(bytes: &[u8]) -> Option<Seed> {
        if bytes.len() != SEED {
            return None;
        }
        let number = |i: usize| number_at(bytes, 4 * i);
        let seed = Seed {
            a: std::array::from_fn(number),
            b: std::array::from_fn(|i| number(5 + i)),
        };
        seed.numbers().all(|n| n < P).then_some(seed)
    }

    /// The 40 bytes.
    pub fn bytes(&self) -> Vec<u8> {
        self.numbers().flat_map(u32::to_be_bytes).collect()
    }

    fn numbers(&self) -> impl Iterator<Item = u32> {
        self.a.into_iter().chain(self.b)
    }

    /// "h(x) = (a0 + a1·x + a2·x² + a3·x³ + a4·x⁴) mod p."
    pub fn h(&self, x: u32) -> u32 {
        polynomial(&self.a, x)
    }

    /// "g(x) is the same with b0..b4."
    pub fn g(&self, x: u32) -> u32 {
        polynomial(&self.b, x)
    }
}

/// What a table is made with: "the sizes and seed of make", and its version, which
/// the image and the plain book "are given too" (document 02, request A.6).
#[derive(Clone, Copy, Debug, PartialEq, Eq)]
pub struct Made {
    pub sizes: Sizes,
    pub seed: Seed,
}

impl Made {
    /// "level(x) = 1 + the largest j ≤ β−1 such that γ^j divides h(x);
    /// h(x) = 0 gives β. The front has level β."
    pub fn level(&self, key: u32) -> u32 {
        let beta = self.sizes.beta();
        if key == FRONT {
            return beta;
        }
        let mut j = 0;
        let mut rest = self.seed.h(key); // h(x) / γ^j; 0 can be divided for ever
        while j < beta - 1 && rest % self.sizes.gamma == 0 {
            j += 1;
            rest /= self.sizes.gamma;
        }
        1 + j
    }
}

/// "key 1..p−1".
pub fn is_key(key: u32) -> bool {
    (1..P).contains(&key)
}

/// Four bytes big-endian.
pub fn number_at(bytes: &[u8], place: usize) -> u32 {
    let four = bytes[place..place + 4].try_into();
    u32::from_be_bytes(four.expect("four bytes"))
}

/// Two bytes big-endian.
pub fn short_at(bytes: &[u8], place: usize) -> u32 {
    u32::from(bytes[place]) << 8 | u32::from(bytes[place + 1])
}

/// c0 + c1·x + .. + c4·x⁴ mod p, as ((((c4)·x + c3)·x + ..)·x + c0) mod p.
fn polynomial(coefficients: &[u32; 5], x: u32) -> u32 {
    let step = |sum: u64, &c: &u32| (sum * u64::from(x) + u64::from(c)) % u64::from(P);
    coefficients.iter().rev().fold(0, step) as u32
}
