//! A request before its voxels are drawn and its buffers are cut: what the lists and the generator
//! vary.

use shared::Seeded;

use crate::document::{count, LARGEST};
use crate::request::{Asked, Lengths, Request};

/// A buffer that would be longer is lent as short as `SHORT`, so that a request beyond refusal 6 is
/// answered with 7 and not carried out.
const LONGEST: usize = 1 << 22;
const SHORT: usize = 4;

/// What a volume is made of.
#[derive(Clone, Copy)]
pub enum Voxels {
    /// Sizes up to 1,024.
    Ordinary,
    Whole,
    /// Zeros of both signs and a few others.
    Zeros,
    Subnormal,
    /// Sizes up to 2^100, among ordinary ones.
    Large,
    /// One number to a plane of the first axis.
    Planes,
    /// 10 20 30 and so on along the last axis.
    Lanes,
}

/// The kinds that are drawn.
pub const VOXELS: [Voxels; 6] = [
    Voxels::Ordinary,
    Voxels::Whole,
    Voxels::Zeros,
    Voxels::Subnormal,
    Voxels::Large,
    Voxels::Planes,
];

impl Voxels {
    fn draw(self, seed: u64, dims: [usize; 3], count: usize) -> Vec<f64> {
        let mut seeded = Seeded::new(seed);
        let plane = dims[1].saturating_mul(dims[2]).max(1);
        let voxel = |place: usize| match self {
            Voxels::Ordinary => seeded.between(-1024.0, 1024.0),
            Voxels::Whole => seeded.below(2001) as f64 - 1000.0,
            Voxels::Zeros => seeded.pick(&[0.0, -0.0, -0.0, 0.0, -0.0, 1.0, -5e-324, 5e-324]),
            Voxels::Subnormal => {
                let bits = seeded.bits();
                f64::from_bits(bits & (1 << 63) | (bits & (u64::MAX >> 1)) >> 11)
            }
            Voxels::Large => match seeded.below(4) {
                0 => seeded.pick(&[LARGEST, -LARGEST]),
                1 => seeded.between(-LARGEST, LARGEST),
                _ => seeded.between(-1.0, 1.0),
            },
            Voxels::Planes => {
                let mut of_plane = Seeded::new(seed.wrapping_add((place / plane) as u64));
                of_plane.between(-8.0, 8.0)
            }
            Voxels::Lanes => 10.0 * (1 + place % dims[2]) as f64,
        };
        (0..count).map(voxel).collect()
    }
}

/// How many places more than right each buffer has. `work` may have more.
#[derive(Clone, Copy, Default)]
pub struct Off {
    pub input: isize,
    pub output: isize,
    pub coverage: isize,
    pub work: isize,
    pub counts: isize,
}

#[derive(Clone, Copy)]
pub struct Plan {
    pub asked: Asked,
    pub voxels: Voxels,
    pub seed: u64,
    /// What one voxel is replaced by.
    pub flaw: Option<f64>,
    pub off: Off,
}

impl Plan {
    /// A request whose voxels are ordinary and whose buffers are right.
    pub fn of(asked: Asked, seed: u64) -> Plan {
        Plan {
            asked,
            voxels: Voxels::Ordinary,
            seed,
            flaw: None,
            off: Off::default(),
        }
    }

    pub fn request(&self) -> Request {
        let asked = self.asked;
        let right = asked.lengths();
        let input = lent(count(asked.dims), self.off.input);
        let mut input = self.voxels.draw(self.seed, asked.dims, input);
        if let (Some(flaw), length @ 1..) = (self.flaw, input.len()) {
            input[Seeded::new(self.seed).below(length)] = flaw;
        }
        Request {
            asked,
            input,
            lengths: Lengths {
                output: lent(right.output, self.off.output),
                coverage: lent(right.coverage, self.off.coverage),
                work: lent(right.work, self.off.work),
                counts: lent(right.counts, self.off.counts),
            },
        }
    }

    /// The places of the largest buffer.
    pub fn places(&self) -> usize {
        let asked = &self.asked;
        let counts = [
            count(asked.dims),
            count(asked.output_dims()),
            asked.needed(),
        ];
        let lent = counts.map(|right| lent(right, 0));
        lent.into_iter().fold(0, usize::max)
    }
}

fn lent(right: usize, off: isize) -> usize {
    let cut = if right > LONGEST { SHORT } else { right };
    cut.saturating_add_signed(off)
}
