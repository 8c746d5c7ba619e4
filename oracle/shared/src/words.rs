//! Words of 8 bytes, the lowest byte first: a whole number, or the bits of a float.

#[derive(Default, PartialEq, Eq, Hash)]
pub struct Words(Vec<u64>);

impl Words {
    pub fn new() -> Words {
        Words::default()
    }

    pub fn count(&self) -> usize {
        self.0.len()
    }

    pub fn whole(&mut self, number: usize) {
        self.0.push(number as u64);
    }

    pub fn wholes(&mut self, numbers: &[usize]) {
        for number in numbers {
            self.whole(*number);
        }
    }

    /// The replay compares patterns, and a NaN has many.
    pub fn float(&mut self, number: f64) {
        assert!(!number.is_nan(), "no answer is a NaN");
        self.0.push(number.to_bits());
    }

    pub fn floats(&mut self, numbers: &[f64]) {
        for number in numbers {
            self.float(*number);
        }
    }

    /// The number of cases, then each of them.
    pub fn section(&mut self, cases: &[Words]) {
        self.whole(cases.len());
        for case in cases {
            self.append(case);
        }
    }

    pub fn append(&mut self, words: &Words) {
        self.0.extend_from_slice(&words.0);
    }

    pub fn bytes(&self) -> Vec<u8> {
        self.0.iter().flat_map(|word| word.to_le_bytes()).collect()
    }
}
