//! Bodies that aren't hot: a file, and a row here. What was used longest ago goes first.
use super::format::{Row, UNIT};
use super::rows::Rows;
use crate::given::Digest;
use std::collections::{HashMap, HashSet};

#[derive(Debug, Default)]
pub(crate) struct Cold {
    /// Whether the saved order was read and the directories listed. Before, any key may be cold.
    scanned: bool,
    rows: Rows,
    /// Directories that couldn't be listed whole, by their first byte: any key of theirs may be cold.
    unread: HashSet<u8>,
    /// Before the scan: keys whose file was changed or used since the start, and what it took then. (Not of those that have a row which says the same.)
    touched: HashMap<Digest, u64>,
}
/// What a scan found.
#[derive(Debug, Default)]
pub(crate) struct Scanned {
    pub rows: Rows,
    pub unread: HashSet<u8>,
}
fn bytes(row: &Row) -> u64 {
    u64::from(row.units) * UNIT
}
impl Cold {
    pub fn is_scanned(&self) -> bool {
        self.scanned
    }
    pub fn may_have(&self, key: &Digest) -> bool {
        !self.scanned || self.is_cold(key) || self.unread.contains(&key.0[0])
    }
    pub fn is_cold(&self, key: &Digest) -> bool {
        self.rows.get(key).is_some()
    }
    /// Before the scan: whether its file was changed or used since the start.
    pub fn is_touched(&self, key: &Digest) -> bool {
        self.touched.contains_key(key) || self.is_cold(key)
    }
    pub fn len(&self) -> u64 {
        self.rows.len() as u64
    }
    /// Its file went, has another's place, or is hot: what was counted of it. `takes`: what the file took, if it was there.
    pub fn forget(&mut self, key: &Digest, takes: u64) -> u64 {
        let takes = self.rows.remove(key).map_or(takes, |it| bytes(&it));
        if !self.scanned {
            self.touched.entry(*key).or_insert(takes);
        }
        takes
    }
    /// A body is cold from now on, and was used last of all that are.
    pub fn add(&mut self, row: Row) {
        if self.touched.get(&row.key) == Some(&bytes(&row)) {
            self.touched.remove(&row.key);
        }
        self.rows.push_newest(row);
    }
    /// Any key of that directory may be cold.
    pub fn add_unread(&mut self, byte: u8) {
        self.unread.insert(byte);
    }
    /// The body used longest ago.
    pub fn oldest(&self) -> Option<Row> {
        self.rows.oldest()
    }
    /// Begins a walk over all rows, most recently used first. There is one at a time.
    pub fn start_walk(&mut self) {
        self.rows.start_walk();
    }
    pub fn walk(&mut self, most: usize) -> Vec<Row> {
        self.rows.walk(most)
    }
    /// Takes over what a scan found, but for what was changed or used since the start. What the rows take, as of the start.
    pub fn replace(&mut self, mut scanned: Scanned) -> u64 {
        let mut sum: u64 = scanned.rows.iter().map(bytes).sum();
        let since = std::mem::take(&mut self.rows);
        for row in since.iter().filter(|it| !self.touched.contains_key(&it.key)) {
            sum += bytes(row);
            sum -= scanned.rows.remove(&row.key).map_or(0, |it| bytes(&it));
        }
        for (key, takes) in std::mem::take(&mut self.touched) {
            sum += takes; // as it was: what has changed since is counted already
            sum -= scanned.rows.remove(&key).map_or(0, |it| bytes(&it));
        }
        since.iter().for_each(|it| scanned.rows.push_newest(*it));
        scanned.unread.extend(self.unread.drain());
        *self = Cold { scanned: true, rows: scanned.rows, unread: scanned.unread, touched: HashMap::new() };
        sum
    }
}

#[cfg(test)]
mod tests {
    use super::super::PartitionKey;
    use super::*;
    fn row(name: u8, units: u32) -> Row {
        Row { key: Digest([name; 16]), partition: PartitionKey([name; 4]), units }
    }
    #[test]
    fn rows_go_in_the_order_of_use() {
        let mut cold = Cold::default();
        assert!(cold.may_have(&row(9, 1).key)); // before the scan
        assert_eq!(cold.forget(&row(1, 1).key, 7 * UNIT), 7 * UNIT); // touched: it took 7 units at the start
        cold.add(row(1, 8)); // and is evicted with 8
        let mut scanned = Scanned::default();
        [row(3, 3), row(1, 6), row(2, 2)].iter().for_each(|it| scanned.rows.push_newest(*it));
        assert_eq!(cold.replace(scanned), (3 + 7 + 2) * UNIT);
        assert_eq!((cold.len(), cold.oldest()), (3, Some(row(3, 3))));
        cold.add(row(3, 3)); // revived and evicted again: the newest
        assert_eq!(cold.forget(&row(2, 2).key, 0), 2 * UNIT);
        cold.start_walk();
        assert_eq!((cold.walk(1), cold.walk(9)), (vec![row(3, 3)], vec![row(1, 8)]));
        assert!(!cold.may_have(&row(9, 1).key) && cold.may_have(&row(1, 1).key));
        assert_eq!(cold.forget(&row(9, 1).key, 5), 5);
    }
    /// Who hits all before the scan has no more keys noted than are hot: what is given up unchanged has a row that says the same.
    #[test]
    fn what_is_used_and_given_up_before_the_scan_is_noted_once() {
        let mut cold = Cold::default();
        for it in 0..100 {
            assert_eq!(cold.forget(&row(it, 0).key, 3 * UNIT), 3 * UNIT);
            cold.add(row(it, 3));
        }
        assert_eq!((cold.touched.len(), cold.len()), (0, 100));
        assert_eq!(cold.forget(&row(7, 0).key, 9), 3 * UNIT); // hot again
        assert_eq!(cold.forget(&row(8, 0).key, 9), 3 * UNIT);
        cold.add(row(8, 5)); // replaced by a larger one, and given up
        assert_eq!((cold.touched.len(), cold.len(), cold.is_touched(&row(7, 0).key)), (2, 99, true));
        let mut scanned = Scanned::default();
        (0..120).for_each(|it| scanned.rows.push_newest(row(it, 3)));
        assert_eq!((cold.replace(scanned), cold.len()), (120 * 3 * UNIT, 119));
        assert_eq!(cold.oldest(), Some(row(100, 3)));
    }
}
