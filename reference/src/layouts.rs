//! How two fields can lie on each other: the candidates of document 01.

/// A field cut at its list variable: what stands before it and behind it. A
/// field without one is all head.
#[derive(Clone, Debug)]
pub(crate) struct Cut<T> {
    pub head: Vec<T>,
    pub list: Option<u32>,
    pub tail: Vec<T>,
}

impl<T> Cut<T> {
    fn atoms(&self) -> usize {
        self.head.len() + self.tail.len()
    }

    fn can_have(&self, length: usize) -> bool {
        match self.list {
            Some(_) => length >= self.atoms(),
            None => length == self.atoms(),
        }
    }

    /// The atom at this spot. Tails are counted from the end.
    pub fn at(&self, spot: usize, spots: usize) -> Option<&T> {
        let from_tail = (spot + self.tail.len()).checked_sub(spots);
        let in_tail = || self.tail.get(from_tail?);
        self.head.get(spot).or_else(in_tail)
    }
}

/// So many spots for atoms, and where a list variable stands among them:
/// behind the first `gap` ones.
#[derive(Clone, Copy, Debug, PartialEq, Eq)]
pub(crate) struct Layout {
    pub spots: usize,
    pub gap: Option<usize>,
}

/// The candidates in their order. Where both fields have a list variable, a
/// slip's field with room for the longer head and the longer tail is one of
/// the last candidate's; each shorter length is a candidate of its own.
pub(crate) fn layouts<T>(left: &Cut<T>, right: &Cut<T>) -> Vec<Layout> {
    let head = left.head.len().max(right.head.len());
    let tail = left.tail.len().max(right.tail.len());
    let open = left.list.and(right.list).map(|_| Layout {
        spots: head + tail,
        gap: Some(head),
    });
    let most = match open {
        Some(layout) => layout.spots,
        None => left.atoms().max(right.atoms()) + 1,
    };
    (0..most)
        .filter(|&length| left.can_have(length) && right.can_have(length))
        .map(|spots| Layout { spots, gap: None })
        .chain(open)
        .collect()
}
