//! Buffers as they are lent to the port: values on either side show whether it
//! wrote past them.

/// How many guard values lie on either side.
const MARGIN: usize = 4;

/// A value that no answer has by chance.
pub trait Guard: Copy + PartialEq {
    const GUARD: Self;
}

impl Guard for f64 {
    const GUARD: f64 = f64::from_bits(0x4BAD_4BAD_4BAD_4BAD);
}

impl Guard for u32 {
    const GUARD: u32 = 0x4BAD_4BAD;
}

impl Guard for i8 {
    const GUARD: i8 = 0x4B;
}

impl Guard for u64 {
    const GUARD: u64 = 0x4BAD_4BAD_4BAD_4BAD;
}

impl Guard for usize {
    const GUARD: usize = 0x4BAD_4BAD_4BAD_4BAD;
}

impl Guard for u8 {
    const GUARD: u8 = 0xB5;
}

/// A lent buffer between its margins.
pub struct Guarded<T> {
    cells: Vec<T>,
}

impl<T: Guard> Guarded<T> {
    /// A buffer that holds these values.
    pub fn of(values: &[T]) -> Self {
        let mut cells = vec![T::GUARD; MARGIN];
        cells.extend_from_slice(values);
        cells.extend([T::GUARD; MARGIN]);
        Guarded { cells }
    }

    /// A buffer of one value.
    pub fn filled(value: T, length: usize) -> Self {
        Guarded::of(&vec![value; length])
    }

    pub fn lend(&mut self) -> &mut [T] {
        let end = self.cells.len() - MARGIN;
        &mut self.cells[MARGIN..end]
    }

    /// The values, if nothing was written past them.
    pub fn kept(mut self) -> Option<Vec<T>> {
        let end = self.cells.len() - MARGIN;
        let margins = self.cells[..MARGIN].iter().chain(&self.cells[end..]);
        let kept = margins.copied().all(|value| value == T::GUARD);
        kept.then(|| self.lend().to_vec())
    }
}
