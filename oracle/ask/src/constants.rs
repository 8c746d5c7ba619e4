//! The constants of the filter: poles, gain and the cut-offs of the mirror start.

use ndarray_ndimage::probe;

use crate::answer::{Answer, Style};

/// Writes the constants of one order.
pub fn write(answer: &mut Answer, order: usize) {
    let poles = probe::poles(order);
    let cutoffs: Vec<usize> = poles.iter().map(|p| probe::mirror_cutoff(*p)).collect();
    answer.word("poles").floats(&poles);
    answer.word("gain").floats(&[probe::gain(order)]);
    answer.word("cutoffs").wholes(&cutoffs);
}

/// Prints the constants of every order that has any, a line each.
pub fn print_all() {
    for order in 2..=5 {
        let mut answer = Answer::new(Style::Bits);
        answer.word("order").word(order);
        write(&mut answer, order);
        println!("{}", answer.into_line());
    }
}
