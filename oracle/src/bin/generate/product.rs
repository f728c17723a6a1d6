//! All combinations of values, by counting: each row number is read as digits, one for each list of values.

/// The value that the lowest digit names; the digits above it are left.
pub fn digit<T: Copy>(row: &mut usize, values: &[T]) -> T {
    let value = values[*row % values.len()];
    *row /= values.len();
    value
}
