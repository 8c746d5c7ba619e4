//! The numbers of a volume or a lane: written out, repeated, or from a seed.

use shared::Seeded;

use crate::fields::{floats, whole, Fields};

/// Reads the field `input`, which must come to `count` numbers.
pub fn read(fields: &mut Fields, count: usize) -> Result<Vec<f64>, String> {
    read_field(fields, "input", count)
}

/// Reads the field `work`, if it is there.
pub fn read_work(fields: &mut Fields, count: usize) -> Result<Option<Vec<f64>>, String> {
    if fields.has("work") {
        read_field(fields, "work", count).map(Some)
    } else {
        Ok(None)
    }
}

fn read_field(fields: &mut Fields, name: &str, count: usize) -> Result<Vec<f64>, String> {
    match fields.values(name)?[..] {
        ["seed", seed] => Ok(from_seed(whole(seed)?).take(count).collect()),
        ["repeat", ref lane @ ..] if !lane.is_empty() => {
            let lane = floats(lane)?;
            Ok(lane.into_iter().cycle().take(count).collect())
        }
        ref values if values.len() == count => floats(values),
        ref values => Err(format!("{} values for {count} places", values.len())),
    }
}

/// Multiples of 2^-42 from -1024 up to but not including 1024, each exact.
fn from_seed(seed: u64) -> impl Iterator<Item = f64> {
    let mut seeded = Seeded::new(seed);
    std::iter::repeat_with(move || (seeded.bits() >> 11) as f64 / (1u64 << 42) as f64 - 1024.0)
}
