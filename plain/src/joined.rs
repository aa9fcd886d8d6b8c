//! A list in named parts.

/// The parts one behind the other, which have N elements.
pub const fn joined<T: Copy, const N: usize>(parts: &[&[T]]) -> [T; N] {
    let mut all = [parts[0][0]; N];
    let (mut part, mut at, mut next) = (0, 0, 0);
    while part < parts.len() {
        if at == parts[part].len() {
            (part, at) = (part + 1, 0);
            continue;
        }
        all[next] = parts[part][at];
        (at, next) = (at + 1, next + 1);
    }
    assert!(next == N);
    all
}
