//! Doors to the filter: its constants, its starts, and one lane alone.

use super::*;

/// The poles of an order, as the filter takes them in turn.
pub fn poles(order: usize) -> Vec<f64> {
    get_filter_poles(order).iter().copied().collect()
}

/// What every lane of an order is scaled by.
pub fn gain(order: usize) -> f64 {
    filter_gain(&get_filter_poles(order))
}

/// How many values of a long lane the mirror start reads. The number is a local of
/// `init_causal_mirror`, so it is found by its effect: a NaN that is read shows in the answer.
pub fn mirror_cutoff(pole: f64) -> usize {
    const LONG: usize = 4096;
    let reads = |at: &usize| {
        let mut lane = Array1::zeros(LONG);
        lane[*at] = f64::NAN;
        init_causal_mirror(&mut lane.view_mut(), pole);
        lane[0].is_nan()
    };
    (0..LONG).take_while(reads).count()
}

/// The first value of a lane after the causal start.
pub fn causal_start(values: &[f64], pole: f64, mode: BorderMode<f64>) -> f64 {
    let mut lane = arr1(values);
    init_causal_coefficient(&mut lane.view_mut(), pole, mode);
    lane[0]
}

/// The last value of a lane after the anticausal start.
pub fn anticausal_start(values: &[f64], pole: f64, mode: BorderMode<f64>) -> f64 {
    let mut lane = arr1(values);
    init_anticausal_coefficient(&mut lane.view_mut(), pole, mode);
    lane[values.len() - 1]
}

/// One lane filtered.
pub fn lane(values: &[f64], order: usize, mode: BorderMode<f64>) -> Vec<f64> {
    let mut lane = arr1(values);
    let poles = get_filter_poles(order);
    let gain = filter_gain(&poles);
    _spline_filter1d(&mut lane, mode, Axis(0), &poles, gain);
    lane.iter().copied().collect()
}
