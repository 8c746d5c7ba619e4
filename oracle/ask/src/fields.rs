//! The fields of a request: a name, then its values up to the next name.

use std::str::FromStr;

use ndarray_ndimage::BorderMode;
use requests::request::{Mode, CONSTANT, MIRROR, NEAREST, REFLECT, REPLICATE, WRAP};

const NAMES: [&str; 19] = [
    "at",
    "axis",
    "base",
    "dims",
    "exponent",
    "factor",
    "factors",
    "input",
    "length",
    "mode",
    "order",
    "output",
    "pole",
    "prefilter",
    "prepad",
    "shift",
    "width",
    "work",
    "zoom",
];

struct Field<'a> {
    name: &'a str,
    values: Vec<&'a str>,
}

pub struct Fields<'a> {
    left: Vec<Field<'a>>,
}

impl<'a> Fields<'a> {
    pub fn read(words: impl Iterator<Item = &'a str>) -> Result<Fields<'a>, String> {
        let mut left: Vec<Field> = Vec::new();
        for word in words {
            if NAMES.contains(&word) {
                let (name, values) = (word, Vec::new());
                left.push(Field { name, values });
            } else {
                let field = left.last_mut();
                let field = field.ok_or_else(|| format!("{word:?} is no field"))?;
                field.values.push(word);
            }
        }
        Ok(Fields { left })
    }

    /// To be called when all that a request needs is taken.
    pub fn none_left(&self) -> Result<(), String> {
        match self.left.first() {
            Some(field) => Err(format!("field {} is not wanted here", field.name)),
            None => Ok(()),
        }
    }

    pub fn has(&self, name: &str) -> bool {
        self.left.iter().any(|field| field.name == name)
    }

    /// The values of a field that must be there.
    pub fn values(&mut self, name: &str) -> Result<Vec<&'a str>, String> {
        let at = self.left.iter().position(|field| field.name == name);
        let at = at.ok_or_else(|| format!("field {name} is missing"))?;
        Ok(self.left.remove(at).values)
    }

    /// The values of a field that has exactly `N` of them.
    fn exactly<const N: usize>(&mut self, name: &str) -> Result<[&'a str; N], String> {
        let values = self.values(name)?;
        <[&str; N]>::try_from(values).map_err(|_| format!("field {name} takes {N} values"))
    }

    pub fn whole<T: FromStr>(&mut self, name: &str) -> Result<T, String> {
        let [value] = self.exactly(name)?;
        whole(value)
    }

    pub fn three_wholes(&mut self, name: &str) -> Result<[usize; 3], String> {
        let [a, b, c] = self.exactly(name)?;
        Ok([whole(a)?, whole(b)?, whole(c)?])
    }

    pub fn float(&mut self, name: &str) -> Result<f64, String> {
        let [value] = self.exactly(name)?;
        float(value)
    }

    pub fn three_floats(&mut self, name: &str) -> Result<[f64; 3], String> {
        let [a, b, c] = self.exactly(name)?;
        Ok([float(a)?, float(b)?, float(c)?])
    }

    pub fn floats(&mut self, name: &str) -> Result<Vec<f64>, String> {
        floats(&self.values(name)?)
    }

    pub fn flag(&mut self, name: &str) -> Result<bool, String> {
        match self.exactly(name)? {
            ["0"] => Ok(false),
            ["1"] => Ok(true),
            _ => Err(format!("field {name} is 0 or 1")),
        }
    }

    /// The mode's number in the door for C, and its fill; 0.0 where it has none.
    pub fn mode_and_fill(&mut self) -> Result<(u32, f64), String> {
        match self.values("mode")?[..] {
            ["constant", fill] => Ok((CONSTANT, float(fill)?)),
            ["mirror"] => Ok((MIRROR, 0.0)),
            ["nearest"] => Ok((NEAREST, 0.0)),
            ["reflect"] => Ok((REFLECT, 0.0)),
            ["wrap"] => Ok((WRAP, 0.0)),
            ["replicate"] => Ok((REPLICATE, 0.0)),
            _ => Err("a mode is constant FILL, mirror, nearest, reflect, wrap or replicate".into()),
        }
    }

    pub fn mode(&mut self) -> Result<Mode, String> {
        let (number, fill) = self.mode_and_fill()?;
        Ok(Mode::of(number, fill).expect("the number of a mode"))
    }

    /// The mode, for a kind that has no answer but the Rust's.
    pub fn rusts_mode(&mut self) -> Result<BorderMode<f64>, String> {
        match self.mode()? {
            Mode::Replicate => Err("the Rust has no mode replicate: not for this kind".into()),
            mode => Ok(mode.rusts()),
        }
    }
}

pub fn whole<T: FromStr>(word: &str) -> Result<T, String> {
    let number = word.parse();
    number.map_err(|_| format!("{word:?} is no whole number that fits"))
}

pub fn floats(words: &[&str]) -> Result<Vec<f64>, String> {
    words.iter().map(|word| float(word)).collect()
}

/// A decimal, or `0x` and the 16 hexadecimal digits of the bits.
fn float(word: &str) -> Result<f64, String> {
    let number = match word.strip_prefix("0x") {
        Some(digits) if digits.len() == 16 => {
            u64::from_str_radix(digits, 16).ok().map(f64::from_bits)
        }
        Some(_) => None,
        None => word.parse().ok(),
    };
    number.ok_or_else(|| format!("{word:?} is no float"))
}
