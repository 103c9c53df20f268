//! The inputs: edge inputs with their neighbours, and random ones.

/// An input: x and y, with y = 0 for a function of one number.
pub type Input = (f64, f64);

/// The inputs that a function has beside those of all functions.
#[derive(Clone, Copy)]
pub struct OwnInputs {
    /// A few edge inputs with their neighbours. All of them are stored.
    pub limits: fn() -> Vec<Input>,
    /// The other edge inputs with their neighbours.
    pub edges: fn() -> Vec<Input>,
    /// Draws from the ranges where most answers are finite.
    pub ordinary: fn(&mut Draw) -> Input,
    /// Draws for the times.
    pub timed: fn(&mut Draw) -> Input,
    /// Inputs that are timed one by one.
    pub points: &'static [Input],
}

impl OwnInputs {
    fn all_edges(self) -> Vec<Input> {
        let mut edges = (self.limits)();
        edges.extend((self.edges)());
        edges
    }
}

/// Numbers above zero at which a function may change its course. Each is taken with both signs.
#[rustfmt::skip]
const EDGES: [f64; 76] = [
    // ends of the range, and one
    f64::INFINITY, f64::MAX, f64::MIN_POSITIVE, 2.225073858507201e-308, 5e-324, 1.0,
    // halves
    0.5, 1.5, 2.5, 3.5, 10.5, 19.5, 999.5, 2147483646.5, 2147483647.5, 2147483648.5,
    // whole numbers of all sizes
    2.0, 3.0, 4.0, 5.0, 6.0, 7.0, 8.0, 16.0, 32.0, 100.0, 171.0, 172.0, 255.0, 256.0, 1023.0,
    65535.0, 65536.0, 1e6, 16777216.0, 1073741824.0, 2147483647.0, 2147483648.0, 2147483649.0,
    4294967295.0, 4294967296.0, 1e15, 2251799813685248.0, 4503599627370496.0, 9007199254740991.0,
    9007199254740992.0, 18014398509481984.0, 4611686018427387904.0, 9223372036854775808.0,
    18446744073709551616.0, 1e22, 1e100, 1e300,
    // limits that the source and the scope paper test
    5.8, 7.5, 10.0, 13.0, 20.0, 250.0, 999.0, 1000.0, 1001.0, 1024.0, 1080.0, 1400.0, 1e9,
    709.782712893384, 745.2, 1e-12, 1e-15, 1e-17, 1e-30, 1e-40, 1e-150,
    std::f64::consts::SQRT_2, 0.49999999999999994,
];

/// NaNs of both signs, quiet and signalling.
pub const NANS: [u64; 4] = [
    0x7ff8_0000_0000_0000,
    0xfff8_0000_0000_0001,
    0x7ff0_0000_0000_0001,
    0xffff_ffff_ffff_ffff,
];

/// The edge inputs: zeros and NaNs first, then the ends of the range, then the others.
pub fn edges() -> Vec<f64> {
    let mut edges = vec![0.0, -0.0];
    edges.extend(NANS.map(f64::from_bits));
    edges.extend(EDGES.iter().flat_map(|&edge| [edge, -edge]));
    edges
}

/// An edge input itself, and those one last place, a half and one away from it.
fn neighbours(edge: f64) -> [f64; 7] {
    [
        edge,
        edge.next_up(),
        edge.next_down(),
        edge + 0.5,
        edge - 0.5,
        edge + 1.0,
        edge - 1.0,
    ]
}

/// All pairs of the first `many` edge inputs.
pub fn edge_pairs(many: usize) -> Vec<Input> {
    let edges = edges();
    let edges = &edges[..many.min(edges.len())];
    pairs(edges, edges)
}

pub fn pairs(xs: &[f64], ys: &[f64]) -> Vec<Input> {
    let pairs_of = |&x: &f64| ys.iter().map(move |&y| (x, y));
    xs.iter().flat_map(pairs_of).collect()
}

/// The number and the floats on either side of it, nearest first, up to `distance` floats away.
pub fn around(x: f64, distance: usize) -> Vec<f64> {
    let mut numbers = vec![x];
    let (mut up, mut down) = (x, x);
    for _ in 0..distance {
        (up, down) = (up.next_up(), down.next_down());
        numbers.extend([up, down]);
    }
    numbers
}

/// Numbers with the floats next to them, and `others` without.
pub fn with_next(numbers: &[f64], others: &[f64]) -> Vec<f64> {
    let next = numbers.iter().flat_map(|&x| around(x, 1));
    next.chain(others.iter().copied()).collect()
}

pub fn both_signs(sizes: &[f64]) -> Vec<f64> {
    sizes.iter().flat_map(|&size| [size, -size]).collect()
}

/// Each number and the two floats on either side of it, as inputs of a function of one number.
pub fn close_to(numbers: impl IntoIterator<Item = f64>) -> Vec<Input> {
    let numbers = numbers.into_iter().flat_map(|x| around(x, 2));
    numbers.map(|x| (x, 0.0)).collect()
}

/// The whole and half-whole numbers `from`/2 to `to`/2.
pub fn halves(from: i32, to: i32) -> impl Iterator<Item = f64> {
    (from..=to).map(|k| f64::from(k) * 0.5)
}

/// 2^k for −1074 ≤ k ≤ 1023.
pub fn power_of_two(k: i32) -> f64 {
    if k < -1022 {
        f64::from_bits(1 << (k + 1074))
    } else {
        f64::from_bits(((k + 1023) as u64) << 52)
    }
}

/// A float between `low` and `high` at which `course` differs from that just below.
pub fn change<T: PartialEq>(course: impl Fn(f64) -> T, mut low: f64, mut high: f64) -> Option<f64> {
    let first = course(low);
    if course(high) == first {
        return None;
    }
    while low.next_up() < high {
        let middle = 0.5 * (low + high);
        if course(middle) == first {
            low = middle;
        } else {
            high = middle;
        }
    }
    Some(high)
}

/// `count` inputs of a function of one number or of `two`: all edge inputs, then drawn ones. Those
/// of one number stand with their neighbours.
pub fn inputs(
    two: bool,
    own: Option<OwnInputs>,
    count: usize,
    seed: u64,
) -> impl Iterator<Item = Input> {
    let mut first = if two {
        edge_pairs(usize::MAX)
    } else {
        let numbers = edges().into_iter().flat_map(neighbours);
        numbers.map(|x| (x, 0.0)).collect()
    };
    first.extend(own.map_or(vec![], OwnInputs::all_edges));
    first.into_iter().chain(drawn(two, own, seed)).take(count)
}

/// Drawn inputs without end. Of those of a function with inputs of its own a quarter are drawn as
/// for all functions, a quarter are close to its edge inputs, half are ordinary.
pub fn drawn(two: bool, own: Option<OwnInputs>, seed: u64) -> impl Iterator<Item = Input> {
    let mut draw = Draw::new(seed);
    let edges = own.map_or(vec![], OwnInputs::all_edges);
    std::iter::repeat_with(move || match own {
        None => draw.any(two),
        Some(own) => match draw.below(4) {
            0 => draw.any(two),
            1 => {
                let (x, y) = edges[draw.below(edges.len())];
                (draw.close(x), if two { draw.close(y) } else { y })
            }
            _ => (own.ordinary)(&mut draw),
        },
    })
}

/// What splitmix64 makes of a state.
pub fn mixed(state: u64) -> u64 {
    let mut bits = state;
    bits = (bits ^ (bits >> 30)).wrapping_mul(0xbf58_476d_1ce4_e5b9);
    bits = (bits ^ (bits >> 27)).wrapping_mul(0x94d0_49bb_1331_11eb);
    bits ^ (bits >> 31)
}

/// Draws inputs from a seed, with the generator splitmix64.
pub struct Draw {
    state: u64,
    edges: Vec<f64>,
}

impl Draw {
    pub fn new(seed: u64) -> Self {
        let edges = edges();
        Draw { state: seed, edges }
    }

    pub fn bits(&mut self) -> u64 {
        self.state = self.state.wrapping_add(0x9e37_79b9_7f4a_7c15);
        mixed(self.state)
    }

    pub fn below(&mut self, limit: usize) -> usize {
        (self.bits() % limit as u64) as usize
    }

    /// Evenly spread between −size and size.
    pub fn uniform(&mut self, size: f64) -> f64 {
        let unit = (self.bits() >> 11) as f64 / 9007199254740992.0;
        (2.0 * unit - 1.0) * size
    }

    /// Of a size between `from` and `to`, of either sign.
    pub fn beyond(&mut self, from: f64, to: f64) -> f64 {
        let x = self.uniform(to - from);
        x + from.copysign(x)
    }

    /// At most `distance` away from a half-whole number of about this size.
    pub fn half_whole(&mut self, size: f64, distance: f64) -> f64 {
        self.uniform(size).trunc() + 0.5 + self.uniform(distance)
    }

    /// Below 1, with all exponents, of either sign.
    pub fn tiny(&mut self) -> f64 {
        self.uniform(1.0) * power_of_two(-(self.below(1074) as i32))
    }

    /// A whole number of 1 to 63 bits, of either sign.
    fn whole(&mut self) -> f64 {
        let width = 1 + self.below(63);
        let size = (self.bits() >> (64 - width)) as f64;
        if self.below(2) == 0 { size } else { -size }
    }

    /// At most four floats away from `x`.
    pub fn close(&mut self, x: f64) -> f64 {
        let bits = x.to_bits().wrapping_add(self.below(9) as u64);
        f64::from_bits(bits.wrapping_sub(4))
    }

    /// At most four floats away from one of the numbers.
    pub fn close_to_one_of(&mut self, numbers: &[f64]) -> f64 {
        let one = self.below(numbers.len());
        self.close(numbers[one])
    }

    /// At most four floats away from a whole number below `size`.
    pub fn close_to_whole(&mut self, size: f64) -> f64 {
        let whole = self.uniform(size).trunc();
        self.close(whole)
    }

    pub fn zero(&mut self) -> f64 {
        [0.0, -0.0][self.below(2)]
    }

    /// Half of them edge inputs or their neighbours, the others random.
    pub fn number(&mut self) -> f64 {
        match self.below(16) {
            0..8 => {
                let edge = self.below(self.edges.len());
                neighbours(self.edges[edge])[self.below(7)]
            }
            8..10 => f64::from_bits(self.bits()),
            10 => self.uniform(10.0),
            11 => self.uniform(1000.0),
            12 => self.uniform(3e9),
            13 => self.whole(),
            14 => self.whole() + 0.5,
            _ => {
                let whole = self.whole();
                self.close(whole)
            }
        }
    }

    /// A quarter of them equal, negated or neighbours, the others drawn one by one.
    fn pair(&mut self) -> (f64, f64) {
        let x = self.number();
        match self.below(16) {
            0 => (x, x),
            1 => (x, -x),
            2 => (x, x.next_up()),
            3 => (x.next_up(), x),
            _ => (x, self.number()),
        }
    }

    fn any(&mut self, two: bool) -> Input {
        if two {
            self.pair()
        } else {
            (self.number(), 0.0)
        }
    }
}

#[cfg(test)]
mod tests {
    use super::{Draw, around, edges, inputs};

    #[test]
    fn the_seed_fixes_the_inputs() {
        let bits = |seed| -> Vec<u64> {
            let inputs = inputs(false, None, 5000, seed);
            inputs.map(|(x, _)| x.to_bits()).collect()
        };
        assert_eq!(bits(1), bits(1));
        assert_ne!(bits(1), bits(2));
    }

    #[test]
    fn the_generator_is_splitmix64() {
        let mut draw = Draw::new(1234567);
        let first = [draw.bits(), draw.bits(), draw.bits()];
        let expected = [
            6457827717110365317,
            3203168211198807973,
            9817491932198370423,
        ];
        assert_eq!(first, expected);
    }

    #[test]
    fn neighbours_stand_nearest_first() {
        let half = 0.5 * f64::EPSILON;
        let expected = [
            1.0,
            1.0 + 2.0 * half,
            1.0 - half,
            1.0 + 4.0 * half,
            1.0 - 2.0 * half,
        ];
        assert_eq!(around(1.0, 2), expected);
        assert_eq!(around(-0.0, 1), [0.0, 5e-324, -5e-324]);
    }

    #[test]
    fn edges_stand_once_and_the_count_is_kept() {
        let mut bits: Vec<u64> = edges().into_iter().map(f64::to_bits).collect();
        let length = bits.len();
        bits.sort_unstable();
        bits.dedup();
        assert_eq!(bits.len(), length);
        assert_eq!(inputs(false, None, 7, 1).count(), 7);
        assert_eq!(inputs(true, None, 100_000, 1).count(), 100_000);
    }
}
