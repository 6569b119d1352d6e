//! What is lent to a call: old values that are not zero, and guards at both ends.

use zullifern::raw::Report;

/// How many values stand before and after what is lent.
const GUARD: usize = 16;

/// A value that may be lent.
pub trait Cell: Copy + PartialEq + Default + Send + std::fmt::Debug {
    /// The old value, which is not zero, of a place in a case.
    fn old(case: u64, place: usize) -> Self;
}

impl Cell for u8 {
    fn old(case: u64, place: usize) -> u8 {
        (case.wrapping_mul(37).wrapping_add(place as u64 * 11) as u8).max(1)
    }
}

impl Cell for u32 {
    fn old(case: u64, place: usize) -> u32 {
        (case as u32)
            .wrapping_add(place as u32)
            .wrapping_mul(0x9e37_79b1)
            .max(1)
    }
}

/// A lent output or table between its guards.
pub struct Lent<T> {
    case: u64,
    cells: Vec<T>,
}

impl<T: Cell> Lent<T> {
    pub fn new(room: usize, case: u64) -> Lent<T> {
        Lent {
            case,
            cells: (0..room + 2 * GUARD).map(|place| T::old(case, place)).collect(),
        }
    }

    pub fn part_mut(&mut self) -> &mut [T] {
        let end = self.cells.len() - GUARD;
        &mut self.cells[GUARD..end]
    }

    pub fn part(&self) -> &[T] {
        &self.cells[GUARD..self.cells.len() - GUARD]
    }

    pub fn guards_untouched(&self) -> bool {
        let end = self.cells.len() - GUARD;
        let mut guards = (0..GUARD).chain(end..end + GUARD);
        guards.all(|place| self.cells[place] == T::old(self.case, place))
    }
}

/// A lent report between two others, all of old values.
pub struct LentReport([Report; 3]);

const OLD_REPORT: Report = Report {
    number: u64::MAX,
    place: 0x0101_0101_0101_0101,
    size: 0xa5a5_a5a5_a5a5_a5a5,
    label_offset: u64::MAX - 1,
    label_length: 7,
    family: u64::MAX - 2,
    style: u64::MAX,
    reserved7: 3,
};

impl LentReport {
    pub fn new() -> LentReport {
        LentReport([OLD_REPORT; 3])
    }

    pub fn part_mut(&mut self) -> &mut Report {
        &mut self.0[1]
    }

    pub fn part(&self) -> &Report {
        &self.0[1]
    }

    pub fn guards_untouched(&self) -> bool {
        self.0[0] == OLD_REPORT && self.0[2] == OLD_REPORT
    }
}
