//! Which rights carry which others.

use super::RightSet;

/// What each right carries by a file's own words. Besides that it carries itself, and whatever these rights carry.
#[derive(Clone, Debug, PartialEq, Eq)]
pub struct Carries(Vec<RightSet>);

impl Carries {
    /// No right carries another.
    pub fn none(rights: usize) -> Carries {
        Carries(vec![RightSet::default(); rights])
    }

    /// By the set of each right.
    pub fn new(sets: Vec<RightSet>) -> Carries {
        Carries(sets)
    }

    /// What the file says of each right.
    pub fn sets(&self) -> &[RightSet] {
        &self.0
    }

    /// What the file says that a right carries.
    pub fn said(&self, right: usize) -> RightSet {
        self.0[right]
    }

    pub fn said_mut(&mut self, right: usize) -> &mut RightSet {
        &mut self.0[right]
    }

    /// All that a right carries, itself among it.
    pub fn all(&self, right: usize) -> RightSet {
        let mut all = RightSet::default();
        let mut reached = vec![right];
        while let Some(next) = reached.pop() {
            if !all.has(next) {
                all.insert(next);
                reached.extend(self.0[next].iter());
            }
        }
        all
    }

    /// The other rights that a right carries, in order.
    pub fn others(&self, right: usize) -> Vec<usize> {
        let all = self.all(right).iter();
        all.filter(|&other| other != right).collect()
    }

    /// The other rights that carry a right, in order.
    pub fn carriers(&self, right: usize) -> Vec<usize> {
        let others = (0..self.0.len()).filter(|&other| other != right);
        others.filter(|&other| self.all(other).has(right)).collect()
    }

    /// The right of a cell by which a condition on a right holds: itself, or else the first that carries it.
    pub fn ground(&self, cell: RightSet, right: usize) -> Option<usize> {
        match cell.has(right) {
            true => Some(right),
            false => self.carriers(right).into_iter().find(|&one| cell.has(one)),
        }
    }

    /// Whether some right carries another.
    pub fn any(&self) -> bool {
        (0..self.0.len()).any(|right| !self.others(right).is_empty())
    }
}
