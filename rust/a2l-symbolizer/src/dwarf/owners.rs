//! Which of many owners holds an address: the first of them, in their order.

use std::cmp::Reverse;
use std::collections::BinaryHeap;

use gimli::Range;

/// Owners are numbered in their order.
pub type Owner = u32;

/// A range that an owner claims.
#[derive(Debug, Clone, Copy)]
pub struct Claim {
    pub range: Range,
    pub owner: Owner,
}

/// Who owns which addresses.
#[derive(Debug, Default)]
pub struct Owners(Box<[Segment]>);

/// Addresses from `begin` on and below `end`, which have one owner.
#[derive(Debug, Clone, Copy, PartialEq, Eq)]
struct Segment {
    begin: u64,
    end: u64,
    owner: Owner,
}

impl Owners {
    /// An index of claims, at most twice as long as these.
    pub fn of(mut claims: Vec<Claim>) -> Owners {
        claims.retain(|claim| claim.range.begin < claim.range.end);
        claims.sort_unstable_by_key(|claim| claim.range.begin);
        let mut claims = claims.into_iter().peekable();
        let (mut open, mut segments, mut begin) = (BinaryHeap::new(), Vec::<Segment>::new(), 0);
        loop {
            while let Some(claim) = claims.next_if(|claim| claim.range.begin <= begin) {
                open.push(Reverse((claim.owner, claim.range.end)));
            }
            let next = claims.peek().map(|claim| claim.range.begin);
            match (open.peek(), next) {
                (Some(&Reverse((_, end))), _) if end <= begin => drop(open.pop()),
                (Some(&Reverse((owner, last))), _) => {
                    let end = next.map_or(last, |next| next.min(last));
                    match segments.last_mut() {
                        Some(before) if before.owner == owner && before.end == begin => before.end = end,
                        _ => segments.push(Segment { begin, end, owner }),
                    }
                    begin = end;
                }
                (None, Some(next)) => begin = next,
                (None, None) => return Owners(segments.into_boxed_slice()),
            }
        }
    }

    /// The first owner that claims an address.
    pub fn find(&self, address: u64) -> Option<Owner> {
        let after = self.0.partition_point(|segment| segment.begin <= address);
        let segment = self.0[..after].last()?;
        (address < segment.end).then_some(segment.owner)
    }
}

#[cfg(test)]
mod tests {
    use super::*;

    /// Owners of claims, each a begin and an end, in order.
    fn owners(claims: &[(u64, u64, Owner)]) -> Owners {
        let claim = |&(begin, end, owner)| Claim { range: Range { begin, end }, owner };
        Owners::of(claims.iter().map(claim).collect())
    }

    #[test]
    fn the_first_one_holds() {
        for claims in [
            [(10, 20, 1), (0, 30, 2), (5, 12, 0)].as_slice(),
            &[(0, 4, 3), (4, 8, 3), (2, 6, 1), (2, 3, 2), (7, 7, 0), (9, 8, 0)],
            &[(0, u64::MAX, 1), (u64::MAX - 1, u64::MAX, 0)],
            &[],
        ] {
            let found = owners(claims);
            for address in (0..40).chain([u64::MAX - 2, u64::MAX - 1, u64::MAX]) {
                let holds = claims.iter().filter(|&&(begin, end, _)| begin <= address && address < end);
                assert_eq!(found.find(address), holds.map(|&(.., owner)| owner).min(), "{claims:?} {address}");
            }
        }
    }

    #[test]
    fn the_index_is_short() {
        let nested: Vec<_> = (0..1000).map(|n| (u64::from(n), 3000 - u64::from(n), 1000 - n)).collect();
        assert_eq!(owners(&nested).0.len(), 1999);
        let one: Vec<_> = (0..1000).map(|n| (n, 2000, 7)).collect();
        assert_eq!(owners(&one).0.len(), 1);
    }
}
