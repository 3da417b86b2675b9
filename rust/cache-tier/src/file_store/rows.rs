//! Rows in the order of use, found by their keys: 32 bytes each and some 6 to find it.
use super::format::Row;
use crate::given::Digest;
use std::collections::hash_map::RandomState;
use std::hash::{BuildHasher, Hash, Hasher};

const NONE: u32 = u32::MAX;

#[derive(Clone, Copy, Debug)]
struct Node {
    row: Row,
    older: u32,
    newer: u32,
}
/// A list of rows by use. Nodes lie in one vector, each with its neighbours; a table of their numbers finds them.
#[derive(Debug)]
pub(crate) struct Rows {
    nodes: Vec<Node>,
    /// Numbers of nodes, each at its key's place or behind it; `NONE`: free.
    table: Vec<u32>,
    hasher: RandomState,
    oldest: u32,
    newest: u32,
    /// Nodes that are free, by `older`.
    free: u32,
    len: usize,
    /// Where a walk goes on.
    cursor: u32,
}
impl Default for Rows {
    fn default() -> Rows {
        Rows { nodes: Vec::new(), table: Vec::new(), hasher: RandomState::new(), oldest: NONE, newest: NONE, free: NONE, len: 0, cursor: NONE }
    }
}
impl Rows {
    pub fn len(&self) -> usize {
        self.len
    }
    pub fn get(&self, key: &Digest) -> Option<&Row> {
        self.find(key).map(|it| &self.nodes[self.table[it] as usize].row)
    }
    pub fn oldest(&self) -> Option<Row> {
        self.nodes.get(self.oldest as usize).map(|it| it.row)
    }
    /// The number of a row's node, for a table beside this one. It is the row's till that is removed.
    pub fn number(&self, key: &Digest) -> Option<usize> {
        self.find(key).map(|it| self.table[it] as usize)
    }
    /// Adds a row that was used after all others. A row of its key goes.
    pub fn push_newest(&mut self, row: Row) {
        self.remove(&row.key);
        let (at, before) = (self.new_node(row), self.newest);
        self.link(before, at);
        self.link(at, NONE);
    }
    /// Adds a row that was used before all others. False: its key has one, which stays.
    pub fn push_oldest(&mut self, row: Row) -> bool {
        if self.find(&row.key).is_some() {
            return false;
        }
        let (at, after) = (self.new_node(row), self.oldest);
        self.link(at, after);
        self.link(NONE, at);
        true
    }
    pub fn remove(&mut self, key: &Digest) -> Option<Row> {
        let place = self.find(key)?;
        let at = self.table[place];
        let Node { row, older, newer } = self.nodes[at as usize];
        self.vacate(place);
        self.link(older, newer);
        if self.cursor == at {
            self.cursor = older;
        }
        self.nodes[at as usize].older = self.free;
        self.free = at;
        self.len -= 1;
        Some(row)
    }
    /// Begins a walk from the newest row on. There is one at a time.
    pub fn start_walk(&mut self) {
        self.cursor = self.newest;
    }
    /// The next rows of the walk, each older than the one before; what is added meanwhile isn't among them.
    pub fn walk(&mut self, most: usize) -> Vec<Row> {
        let mut some = Vec::with_capacity(most.min(self.len));
        while some.len() < most {
            let at = match self.nodes.get(self.cursor as usize) {
                Some(it) => it,
                None => break,
            };
            some.push(at.row);
            self.cursor = at.older;
        }
        some
    }
    /// All rows, the oldest first.
    pub fn iter(&self) -> impl Iterator<Item = &Row> + '_ {
        let mut at = self.oldest;
        std::iter::from_fn(move || {
            let node = self.nodes.get(at as usize)?;
            at = node.newer;
            Some(&node.row)
        })
    }
    fn link(&mut self, older: u32, newer: u32) {
        match self.nodes.get_mut(older as usize) {
            Some(it) => it.newer = newer,
            None => self.oldest = newer,
        }
        match self.nodes.get_mut(newer as usize) {
            Some(it) => it.older = older,
            None => self.newest = older,
        }
    }
    fn new_node(&mut self, row: Row) -> u32 {
        let node = Node { row, older: NONE, newer: NONE };
        self.len += 1;
        if 4 * self.len > 3 * self.table.len() {
            self.grow();
        }
        let at = self.free;
        let at = match self.nodes.get_mut(at as usize) {
            Some(it) => {
                self.free = it.older;
                *it = node;
                at
            }
            None => {
                if self.nodes.len() == self.nodes.capacity() {
                    self.nodes.reserve_exact(64 + self.nodes.len() / 8);
                }
                self.nodes.push(node);
                (self.nodes.len() - 1) as u32
            }
        };
        let place = self.free_place(&row.key);
        self.table[place] = at;
        at
    }
    /// Where a key's search begins.
    fn home(&self, key: &Digest) -> usize {
        let mut hasher = self.hasher.build_hasher();
        key.hash(&mut hasher);
        ((u128::from(hasher.finish()) * self.table.len() as u128) >> 64) as usize
    }
    fn next(&self, place: usize) -> usize {
        (place + 1) % self.table.len()
    }
    fn find(&self, key: &Digest) -> Option<usize> {
        if self.len == 0 {
            return None;
        }
        let mut place = self.home(key);
        while let Some(it) = self.nodes.get(self.table[place] as usize) {
            if it.row.key == *key {
                return Some(place);
            }
            place = self.next(place);
        }
        None
    }
    fn free_place(&self, key: &Digest) -> usize {
        let mut place = self.home(key);
        while self.table[place] != NONE {
            place = self.next(place);
        }
        place
    }
    /// Frees a place, and moves those behind it that would no longer be found.
    fn vacate(&mut self, mut hole: usize) {
        let mut place = self.next(hole);
        while let Some(it) = self.nodes.get(self.table[place] as usize) {
            let size = self.table.len();
            let home = self.home(&it.row.key);
            if (place + size - home) % size >= (place + size - hole) % size {
                self.table[hole] = self.table[place];
                hole = place;
            }
            place = self.next(place);
        }
        self.table[hole] = NONE;
    }
    fn grow(&mut self) {
        let old = std::mem::take(&mut self.table);
        self.table = vec![NONE; 16 + old.len() / 2 * 3];
        for at in old.into_iter().filter(|it| *it != NONE) {
            let place = self.free_place(&self.nodes[at as usize].row.key);
            self.table[place] = at;
        }
    }
}

#[cfg(test)]
mod tests {
    use super::super::PartitionKey;
    use super::*;
    fn row(name: u64, units: u32) -> Row {
        Row { key: Digest::of(&name.to_le_bytes()), partition: PartitionKey([0; 4]), units }
    }
    /// Beside a plain list, oldest first.
    #[test]
    fn rows_are_those_of_a_plain_list() {
        let (mut rows, mut list, mut state) = (Rows::default(), Vec::<Row>::new(), 7u64);
        let mut random = |below: u64| {
            state = state.wrapping_mul(6_364_136_223_846_793_005).wrapping_add(1_442_695_040_888_963_407);
            (state >> 33) % below
        };
        for step in 0..6000 {
            let it = row(random(300), step);
            match random(if step % 2000 < 1000 { 4 } else { 8 }) {
                0 | 1 => {
                    list.retain(|old| old.key != it.key);
                    list.push(it);
                    rows.push_newest(it);
                }
                2 => {
                    let is_new = list.iter().all(|old| old.key != it.key);
                    assert_eq!(rows.push_oldest(it), is_new);
                    if is_new {
                        list.insert(0, it);
                    }
                }
                _ => {
                    let old = list.iter().position(|old| old.key == it.key).map(|at| list.remove(at));
                    assert_eq!(rows.remove(&it.key), old);
                }
            }
            let it = row(random(300), 0).key;
            assert_eq!((rows.len(), rows.oldest(), rows.get(&it)), (list.len(), list.first().copied(), list.iter().find(|old| old.key == it)));
            assert!(step % 50 != 0 || rows.iter().eq(list.iter()));
        }
        assert!(rows.nodes.len() <= 300 && rows.table.len() < 2 * 300);
    }
    #[test]
    fn a_walk_goes_on_where_rows_go() {
        let mut rows = Rows::default();
        (0..9).for_each(|it| rows.push_newest(row(it, 1)));
        rows.start_walk();
        assert_eq!(rows.walk(2), [row(8, 1), row(7, 1)]);
        assert!([6, 5, 8].iter().all(|it| rows.remove(&row(*it, 1).key).is_some()));
        rows.push_newest(row(20, 1)); // in the place of one of them
        rows.push_newest(row(3, 2));
        assert_eq!(rows.walk(9), [row(4, 1), row(2, 1), row(1, 1), row(0, 1)]);
        assert_eq!(rows.walk(9), []);
    }
}
