use crate::{Array, Array1, Array2};

fn three_by_three() -> Array2<f64> {
    Array::from_shape_vec((3, 3), (0..9).map(f64::from).collect()).unwrap()
}

#[test]
fn slices_are_the_named_parts() {
    let m = three_by_three();
    let list = |v: crate::ArrayView1<f64>| v.iter().copied().collect::<Vec<_>>();
    assert_eq!(list(m.slice(s![1, 0..2])), [3.0, 4.0]);
    assert_eq!(list(m.slice(s![1.., 0])), [3.0, 6.0]);
    assert_eq!(list(m.slice(s![0, 1..])), [1.0, 2.0]);
    assert_eq!(list(m.slice(s![3.., 2])), []);
    assert_eq!(list(m.diag()), [0.0, 4.0, 8.0]);
    assert_eq!(list(m.diag().slice(s![1..])), [4.0, 8.0]);
    let block = m.slice(s![1.., 1..]);
    assert_eq!(
        [block[(0, 0)], block[(0, 1)], block[(1, 0)], block[(1, 1)]],
        [4.0, 5.0, 7.0, 8.0]
    );
}

#[test]
fn sums_run_left_to_right_from_plus_zero() {
    let sum = |v: &[f64]| v.iter().copied().collect::<Array1<f64>>().sum();
    assert_eq!(sum(&[1e16, 1.0, 1.0, -1e16]), 0.0);
    assert_eq!(sum(&[-0.0]).to_bits(), 0);
    assert_eq!(sum(&[]).to_bits(), 0);
}

#[test]
fn products_add_from_plus_zero() {
    let m = Array::from_shape_vec((1, 1), vec![-0.0]).unwrap();
    assert_eq!(m.dot(&Array::eye(1))[(0, 0)].to_bits(), 0);
}

#[test]
fn a_store_counts_for_its_step_even_when_overwritten() {
    watch::begin();
    let mut a: Array1<f64> = Array::zeros(2);
    watch::step(3);
    a[0] = f64::NAN;
    watch::step(4);
    a[0] = 1.0;
    assert_eq!(watch::end().refused, Some(3));
}

#[test]
fn the_last_store_counts_when_the_array_is_dropped() {
    watch::begin();
    let mut a: Array2<f64> = Array::zeros((1, 1));
    watch::step(5);
    a[(0, 0)] /= 0.0;
    watch::step(6);
    assert_eq!(watch::end().refused, None);
    drop(a);
    assert_eq!(watch::end().refused, Some(5));
}

#[test]
fn swaps_store_nothing_and_assigning_does() {
    watch::begin();
    let mut m = Array::from_shape_vec((2, 2), vec![f64::NAN, 0.0, 0.0, 0.0]).unwrap();
    m.swap((0, 0), (1, 1));
    assert!(m[(1, 1)].is_nan());
    assert_eq!(watch::end().refused, None);
    watch::step(2);
    m.diag_mut()
        .assign(&Array1::from_iter([1.0, f64::INFINITY]));
    assert_eq!(watch::end().refused, Some(2));
}
