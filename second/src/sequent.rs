//! The members of a sequent along one branch of the walk, repeats counted.

use crate::arena::Id;

#[derive(Default)]
pub struct Sequent {
    members: Vec<Id>,
    /// How often each identifier is a member.
    times: Vec<u32>,
}

impl Sequent {
    pub fn len(&self) -> usize {
        self.members.len()
    }

    pub fn is_empty(&self) -> bool {
        self.members.is_empty()
    }

    pub fn members(&self) -> &[Id] {
        &self.members
    }

    pub fn has(&self, id: Id) -> bool {
        self.times_of(id) > 0
    }

    /// Whether it has a member and none but this one.
    pub fn is_only(&self, id: Id) -> bool {
        !self.is_empty() && self.times_of(id) == self.len()
    }

    fn times_of(&self, id: Id) -> usize {
        self.times.get(id as usize).map_or(0, |&n| n as usize)
    }

    pub fn add(&mut self, id: Id) {
        let place = id as usize;
        if self.times.len() <= place {
            self.times.resize(place + 1, 0);
        }
        self.times[place] += 1;
        self.members.push(id);
    }

    /// Takes back the newest members until only so many are left.
    pub fn shrink_to(&mut self, length: usize) {
        while self.members.len() > length {
            if let Some(id) = self.members.pop() {
                self.times[id as usize] -= 1;
            }
        }
    }

    /// Puts other members in place of all; gives back those that were there.
    pub fn exchange(&mut self, members: Vec<Id>) -> Vec<Id> {
        let before = self.members.clone();
        self.shrink_to(0);
        for id in members {
            self.add(id);
        }
        before
    }
}
