//! The library, asked by whole shifts of a volume whose voxels bear their index on one axis. A call
//! answers for as many coordinates as the axis is long.

use requests::lent::Lent;
use requests::plan::Plan;
use requests::request::{Asked, Entry, Mode};
use requests::spoils::sound;

use super::{Axis, Landing, Program, Stretch, Witness, FILL, MODES};
use crate::ours;

/// What no call writes.
const UNWRITTEN: (u64, u8) = (u64::MAX, u8::MAX);

pub struct Library {
    axis: Axis,
    /// The number of the axis; the other two are 2 long.
    number: usize,
    asked: Asked,
    lent: Lent,
    /// For each index of the axis, the places of the four voxels that bear it.
    places: Vec<[usize; 4]>,
}

impl Library {
    pub fn new(axis: Axis) -> Library {
        let length = axis.length as usize;
        // by turns; a long one goes last, where calls cost least
        let number = if length <= 64 { length % 3 } else { 2 };
        let mut dims = [2; 3];
        dims[number] = length;
        let places = places(dims, number);
        let asked = asked(axis, dims);
        let mut request = Plan::of(asked, 0).request();
        for (index, places) in places.iter().enumerate() {
            for place in places {
                request.input[*place] = index as f64;
            }
        }
        Library {
            axis,
            number,
            asked,
            lent: Lent::new(&request),
            places,
        }
    }

    /// Shifts so that index 0 has this coordinate.
    fn call(&mut self, first: i64) -> Result<(), String> {
        let (value, code) = UNWRITTEN;
        self.lent.output.lent_mut().fill(value);
        self.lent.coverage.lent_mut().fill(code);
        self.asked.factors[self.number] = (-first) as f64;
        match ours::resample(&self.asked, &mut self.lent) {
            0 => Ok(()),
            refusal => Err(format!(
                "{:?}: shift {} is refused with {refusal}",
                self.axis, -first
            )),
        }
    }

    /// The code of a kept voxel. Beyond the axis Nearest reads its voxel as a folded neighbour's, at
    /// order 1. Replicate clamps the coordinate, and the other modes have order 0, which has no code 3.
    fn kept_code(&self, at: i64) -> u8 {
        if self.axis.mode == Mode::Nearest && at >= self.axis.length {
            3
        } else {
            0
        }
    }

    /// Of the index that has this coordinate.
    fn landing(&self, index: usize, at: i64) -> Landing {
        let (codes, values) = (self.lent.coverage.lent(), self.lent.output.lent());
        let given = |place: &usize| (codes[*place], values[*place]);
        let [first, others @ ..] = &self.places[index];
        let of_first = given(first);
        let different = others.iter().map(given).find(|other| *other != of_first);
        if let Some((code, bits)) = different {
            return Landing::Neither(code, f64::from_bits(bits));
        }
        let is_constant = matches!(self.axis.mode, Mode::Constant(_));
        match (of_first.0, f64::from_bits(of_first.1)) {
            (code, value) if code == self.kept_code(at) => Landing::voxel(value),
            (1, FILL) if is_constant => Landing::Outside,
            (2, 0.0) if !is_constant => Landing::Outside,
            (code, value) => Landing::Neither(code, value),
        }
    }
}

impl Witness for Library {
    const PROGRAM: Program = Program::Library;
    const LONGEST: i64 = 4096;
    const BEYOND: i64 = 0;

    fn axis(&self) -> Axis {
        self.axis
    }

    /// The last call is brought back, to end with the stretch.
    fn walk(
        &mut self,
        stretch: Stretch,
        mut each: impl FnMut(i64, Landing) -> Result<(), String>,
    ) -> Result<(), String> {
        let length = self.axis.length;
        let (mut next, last) = stretch.into_inner();
        while next <= last {
            let first = next.min(last + 1 - length);
            self.call(first)?;
            for at in next..first + length {
                each(at, self.landing((at - first) as usize, at))?;
            }
            next = first + length;
        }
        Ok(())
    }
}

fn asked(axis: Axis, dims: [usize; 3]) -> Asked {
    let number = MODES.iter().position(|mode| *mode == axis.mode);
    Asked {
        dims,
        factors: [0.0; 3],
        order: order(axis),
        prefilter: 0,
        mode: number.expect("one of the six") as u32,
        fill: FILL,
        ..sound(Entry::Shift).asked
    }
}

/// Order 0 copies one voxel. In Nearest it refuses what lies beyond the axis; order 1 does not, and has
/// the weights 1 and 0. Replicate is asked at both, by turns.
fn order(Axis { mode, length }: Axis) -> usize {
    match mode {
        Mode::Nearest => 1,
        Mode::Replicate => length as usize % 2,
        _ => 0,
    }
}

/// For each index of the axis with this number, the places of the four voxels that bear it.
fn places(dims: [usize; 3], number: usize) -> Vec<[usize; 4]> {
    let strides = [dims[1] * dims[2], dims[2], 1];
    let [one, other] = [strides[(number + 1) % 3], strides[(number + 2) % 3]];
    let first = |index| index * strides[number];
    (0..dims[number])
        .map(|index| [0, one, other, one + other].map(|lane| first(index) + lane))
        .collect()
}
