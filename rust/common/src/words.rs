//! Inputs one after another.

/// Every string of up to `most` letters, or the `part`-th of `parts` parts of them.
pub fn words<T: Copy>(letters: &[T], most: u32, (part, parts): (usize, usize), mut each: impl FnMut(&[T])) {
    let mut word = Vec::new();
    for len in 0..=most {
        for k in (part..letters.len().pow(len)).step_by(parts) {
            word.clear();
            word.extend((0..len).map(|i| letters[k / letters.len().pow(i) % letters.len()]));
            each(&word);
        }
    }
}
