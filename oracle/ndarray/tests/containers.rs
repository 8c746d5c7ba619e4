//! The containers hold what is put into them, whatever the walk or the layout.

use ndarray::{arr1, s, Array, Array2, Array3, Axis, Ix3, ShapeBuilder, Slice, Zip};

const DIM: [usize; 3] = [2, 3, 4];

/// Each element is its own place in row-major order.
fn counted() -> Array3<f64> {
    Array3::from_shape_vec(DIM, (0..24).map(f64::from).collect()).unwrap()
}

fn elements<D: ndarray::Dimension>(array: &ndarray::ArrayRef<f64, D>) -> Vec<f64> {
    array.map(|v| *v).as_slice().unwrap().to_vec()
}

#[test]
fn an_index_reaches_its_element() {
    let array = counted();
    assert_eq!(array[(1, 2, 3)], 23.0);
    assert_eq!(array[(0, 2, 1)], 9.0);
    assert_eq!((array.dim(), array.len(), array.ndim()), ((2, 3, 4), 24, 3));
}

#[test]
#[should_panic(expected = "out of bounds")]
fn an_index_outside_panics_though_its_place_is_inside() {
    let _ = counted()[(0, 3, 0)];
}

#[test]
fn the_lanes_of_an_axis_are_its_lines() {
    let mut array = counted();
    let mut lanes_along = |axis| -> Vec<Vec<f64>> {
        let lanes = array.lanes_mut(Axis(axis));
        lanes.map(|lane| lane.iter().copied().collect()).collect()
    };
    assert_eq!(lanes_along(0)[1], [1.0, 13.0]);
    assert_eq!(lanes_along(0).len(), 12);
    assert_eq!(lanes_along(1)[5], [13.0, 17.0, 21.0]);
    assert_eq!(lanes_along(2)[5], [20.0, 21.0, 22.0, 23.0]);
}

#[test]
fn a_write_to_a_lane_reaches_the_array() {
    let mut array = counted();
    Zip::from(array.lanes_mut(Axis(1))).for_each(|mut lane| lane[2] = -1.0);
    let written = |at: usize| if at % 12 >= 8 { -1.0 } else { at as f64 };
    assert_eq!(elements(&array), Vec::from_iter((0..24).map(written)));
}

#[test]
fn zip_visits_every_index_in_order() {
    let mut array = Array3::zeros(DIM);
    let mut visited = Vec::new();
    Zip::indexed(&mut array).for_each(|(x, y, z), element| {
        visited.push((x, y, z));
        *element = (12 * x + 4 * y + z) as f64;
    });
    assert!(visited.is_sorted());
    assert_eq!(elements(&array), elements(&counted()));
}

#[test]
fn slices_run_forwards_and_backwards() {
    let lane = arr1(&[0.0, 1.0, 2.0, 3.0, 4.0]);
    assert_eq!(elements(&lane.slice(s![..2])), [0.0, 1.0]);
    assert_eq!(elements(&lane.slice(s![1..4])), [1.0, 2.0, 3.0]);
    assert_eq!(elements(&lane.slice(s![1..1])), []);
    let backwards = Slice::from(1..4).step_by(-1);
    assert_eq!(elements(&lane.slice(backwards)), [3.0, 2.0, 1.0]);
}

#[test]
#[should_panic(expected = "past the end")]
fn a_slice_past_the_end_panics() {
    arr1(&[0.0, 1.0]).slice(s![1..3]);
}

#[test]
fn a_part_takes_over_another_array() {
    let mut array = Array3::zeros([4, 5, 6]);
    array
        .slice_each_axis_mut(|axis| Slice::from(1..axis.len - 1))
        .assign(&counted());
    assert_eq!(array[(1, 1, 1)], 0.0);
    assert_eq!(array[(2, 3, 4)], 23.0);
    assert_eq!(array[(3, 3, 4)], 0.0);
    assert_eq!(elements(&array).iter().sum::<f64>(), 276.0);
}

#[test]
fn a_split_parts_an_axis() {
    let mut array = counted();
    let (before, after) = array.view_mut().split_at(Axis(1), 2);
    assert_eq!(
        (before.shape(), after.shape()),
        (&[2, 2, 4][..], &[2, 1, 4][..])
    );
    assert_eq!((before[(1, 1, 3)], after[(1, 0, 3)]), (19.0, 23.0));
}

#[test]
fn a_row_is_a_line_of_its_array() {
    let mut table = Array2::zeros((3, 2));
    table.row_mut(1)[1] = 5.0;
    assert_eq!(elements(&table), [0.0, 0.0, 0.0, 5.0, 0.0, 0.0]);
}

#[test]
fn the_order_of_memory_changes_no_element() {
    let mut array: Array<f64, Ix3> = Array::from_elem(DIM.f(), 0.0);
    assert!(!array.is_standard_layout() && array.as_slice().is_none());
    array.assign(&counted());
    assert_eq!(array[(1, 0, 2)], 14.0);
    assert_eq!(elements(&array), elements(&counted()));
}

#[test]
fn a_sum_goes_from_left_to_right() {
    let tiny = f64::EPSILON / 2.0;
    assert_eq!(arr1(&[1.0, tiny, tiny]).sum(), 1.0);
    assert_eq!(arr1(&[tiny, tiny, 1.0]).sum(), 1.0 + 2.0 * tiny);
    assert_eq!(arr1(&[-0.0]).sum().to_bits(), 0.0f64.to_bits());
}

#[test]
#[should_panic(expected = "eight or more")]
fn a_sum_of_eight_is_refused() {
    arr1(&[1.0; 8]).sum();
}
