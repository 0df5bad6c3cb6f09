//! A counter of several digits: every combination of numbers below the given limits, once each.

/// Counts through every row of digits in which each digit is below its limit; the last digit turns
/// fastest.
pub(crate) struct Odometer<const N: usize> {
    limits: [usize; N],
    next: Option<[usize; N]>,
}

impl<const N: usize> Odometer<N> {
    pub(crate) fn new(limits: [usize; N]) -> Self {
        let some = limits.iter().all(|&limit| limit > 0);
        Odometer {
            limits,
            next: some.then_some([0; N]),
        }
    }
}

impl<const N: usize> Iterator for Odometer<N> {
    type Item = [usize; N];

    fn next(&mut self) -> Option<[usize; N]> {
        let row = self.next?;
        let mut turned = row;
        self.next = None;
        for place in (0..N).rev() {
            turned[place] += 1;
            if turned[place] < self.limits[place] {
                self.next = Some(turned);
                break;
            }
            turned[place] = 0;
        }
        Some(row)
    }
}

#[cfg(test)]
mod tests {
    use super::Odometer;

    #[test]
    fn every_row_once() {
        let rows: Vec<_> = Odometer::new([2, 1, 3]).collect();
        let want = [
            [0, 0, 0],
            [0, 0, 1],
            [0, 0, 2],
            [1, 0, 0],
            [1, 0, 1],
            [1, 0, 2],
        ];
        assert_eq!(rows, want);
        assert_eq!(Odometer::new([3, 0]).count(), 0);
        assert_eq!(Odometer::new([7, 5, 3]).count(), 105);
    }
}
