//! Hashes and levels that are slightly wrong, and the tables they lead to. Each slip is planted once in an enter and once in a check.

use crate::faults::arrange_by;
use reference::image::{place, table};
use reference::lists::{chunks, Element, Label, List, Order, Orders};
use reference::sizes::{Made, FRONT, P};

#[derive(Clone, Copy, PartialEq, Eq)]
pub enum Slip {
    /// In h.
    Levels(Sum),
    /// In g.
    Places(Sum),
    PlaceAtP,
    /// In the division by γ^j.
    Trials(Trial),
}

#[derive(Clone, Copy, PartialEq, Eq)]
pub enum Sum {
    FromX,
    OneLate,
    BySelf,
    LastLeftOut,
    Unreduced,
    PForZero,
    /// 64 bits would do for p−1 + 4·(p−1)², the largest sum.
    TooNarrow,
}

#[derive(Clone, Copy, PartialEq, Eq)]
pub enum Trial {
    OneTooFew,
    OneTooMany,
    BySelf,
    SixteenBits,
    ZeroLow,
    TopUnreached,
    TopPassed,
}

/// Each with its name. A g left unreduced is no slip, since the sum for a place is taken mod p.
pub const SLIPS: [(&str, Slip); 20] = [
    ("levels by powers that start at x", Slip::Levels(Sum::FromX)),
    (
        "levels by powers that start one number late",
        Slip::Levels(Sum::OneLate),
    ),
    (
        "levels by powers multiplied by themselves",
        Slip::Levels(Sum::BySelf),
    ),
    ("levels by a sum without a4", Slip::Levels(Sum::LastLeftOut)),
    (
        "levels by a sum whose last step is not reduced",
        Slip::Levels(Sum::Unreduced),
    ),
    (
        "levels by a sum that is p instead of 0",
        Slip::Levels(Sum::PForZero),
    ),
    (
        "levels by a sum cut to 63 bits",
        Slip::Levels(Sum::TooNarrow),
    ),
    ("places by powers that start at x", Slip::Places(Sum::FromX)),
    (
        "places by powers that start one number late",
        Slip::Places(Sum::OneLate),
    ),
    (
        "places by powers multiplied by themselves",
        Slip::Places(Sum::BySelf),
    ),
    ("places by a sum without b4", Slip::Places(Sum::LastLeftOut)),
    (
        "places by a sum cut to 63 bits",
        Slip::Places(Sum::TooNarrow),
    ),
    ("places by a sum that is p instead of 0", Slip::PlaceAtP),
    (
        "γ^j multiplied once too few",
        Slip::Trials(Trial::OneTooFew),
    ),
    (
        "γ^j multiplied once too often",
        Slip::Trials(Trial::OneTooMany),
    ),
    ("γ^j multiplied by itself", Slip::Trials(Trial::BySelf)),
    ("γ^j in 16 bits", Slip::Trials(Trial::SixteenBits)),
    ("level 1 where h(x) = 0", Slip::Trials(Trial::ZeroLow)),
    ("j up to β−2", Slip::Trials(Trial::TopUnreached)),
    ("j up to β", Slip::Trials(Trial::TopPassed)),
];

/// The table of these orders by somebody who slips, or None when they make more than M chunks then.
pub fn image(slip: Slip, made: &Made, orders: &Orders) -> Option<Vec<u8>> {
    let element = |key, order| Element {
        key,
        order,
        level: level(slip, made, key),
    };
    let held = orders.iter().map(|(&key, &order)| element(key, order));
    let all: List = [element(FRONT, Order::default())]
        .into_iter()
        .chain(held)
        .collect();
    let list = |k| -> List {
        let high = all.iter().filter(|element| element.level >= k);
        high.copied().collect()
    };
    let lists: Vec<List> = (1..=made.sizes.beta()).map(list).collect();
    let chunks = chunks(made, &lists);
    if chunks.len() > made.sizes.blocks as usize {
        return None;
    }
    let mut bytes = table(made, orders.len(), &place(made, &chunks));
    arrange_by(&mut bytes, |made, label| home(slip, made, label));
    Some(bytes)
}

fn level(slip: Slip, made: &Made, key: u32) -> u32 {
    let beta = made.sizes.beta();
    if key == FRONT {
        return beta;
    }
    let h = match slip {
        Slip::Levels(sum) => hash(sum, &made.seed.a, key),
        _ => made.seed.h(key).into(),
    };
    if h == 0 {
        return match slip {
            Slip::Trials(Trial::ZeroLow) => 1,
            _ => beta,
        };
    }
    let last = match slip {
        Slip::Trials(Trial::TopUnreached) => beta - 2,
        Slip::Trials(Trial::TopPassed) => beta,
        _ => beta - 1,
    };
    let divides = |&j: &u32| divisor(slip, made.sizes.gamma, j).map_or(false, |by| h % by == 0);
    1 + (1..=last).take_while(divides).count() as u32
}

/// What stands for γ^j, j from 1 on; None where it is 0 or too large to divide a hash.
fn divisor(slip: Slip, gamma: u32, j: u32) -> Option<u64> {
    let power = |exponent| u64::from(gamma).checked_pow(exponent);
    match slip {
        Slip::Trials(Trial::OneTooFew) => power(j - 1),
        Slip::Trials(Trial::OneTooMany) => power(j + 1),
        Slip::Trials(Trial::BySelf) => power(1 << (j - 1)),
        Slip::Trials(Trial::SixteenBits) => power(j)
            .map(|power| power & 0xffff)
            .filter(|&power| power > 0),
        _ => power(j),
    }
}

fn home(slip: Slip, made: &Made, label: &Label) -> usize {
    let g = match slip {
        Slip::Places(sum) => hash(sum, &made.seed.b, label.first_key),
        _ => made.seed.g(label.first_key).into(),
    };
    let sum = g + 65_536 * u64::from(label.level) + u64::from(label.chunk_number);
    let reduced = match sum % u64::from(P) {
        0 if slip == Slip::PlaceAtP => P.into(),
        reduced => reduced,
    };
    (reduced % u64::from(made.sizes.blocks)) as usize
}

/// c0 + c1·x + .. + c4·x⁴ mod p, but for the slip.
fn hash(slip: Sum, c: &[u32; 5], x: u32) -> u64 {
    let p = u128::from(P);
    let exponents = match slip {
        Sum::FromX => [1, 2, 3, 4, 5],
        Sum::OneLate => [0, 0, 1, 2, 3],
        Sum::BySelf => [0, 1, 2, 4, 8],
        _ => [0, 1, 2, 3, 4],
    };
    let power = |exponent| (0..exponent).fold(1, |power, _| power * u128::from(x) % p);
    let term = |i: usize| u128::from(c[i]) * power(exponents[i]);
    let others: u128 = (0..4).map(term).sum();
    let sum = others + term(4);
    let hash = match slip {
        Sum::LastLeftOut => others % p,
        Sum::Unreduced => others % p + term(4) % p,
        Sum::PForZero if sum > 0 && sum % p == 0 => p,
        Sum::TooNarrow => sum % (1 << 63) % p,
        _ => sum % p,
    };
    hash as u64
}
