//! Rows of values, for what is tried on all that are short.

/// Every row of at most so many of these values: the numbers of as many digits.
pub fn every_row<T: Copy>(values: &[T], most: u32) -> Vec<Vec<T>> {
    let digit = |number: usize, place| values[number / values.len().pow(place) % values.len()];
    let row = |number, length| (0..length).map(|place| digit(number, place)).collect();
    (0..=most)
        .flat_map(|length| (0..values.len().pow(length)).map(move |number| (number, length)))
        .map(|(number, length)| row(number, length))
        .collect()
}
