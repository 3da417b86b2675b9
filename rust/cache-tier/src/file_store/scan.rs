//! The saved order is read and the directories are listed, once, in the background.
use super::body_file::Contents;
use super::cold::Scanned;
use super::directory::Directory;
use super::folder::{directory_names, held, name_of, BodyFolder, ORDER};
use super::format::{key_of_name, OrderHeader, Row, ORDER_HEADER, ROW};
use super::index::{HotIndex, PartitionKey};
use super::key_lock::units;
use crate::given::{Digest, Moment};
use std::collections::HashSet;
use std::io::{self, ErrorKind};
use std::sync::atomic::Ordering;

/// What a scan found.
#[derive(Clone, Copy, Debug, Default, PartialEq, Eq)]
#[non_exhaustive]
pub struct Scan {
    /// Cold bodies that the saved order names; those that it doesn't, which came after it.
    pub known: u64,
    pub unknown: u64,
    /// Rows whose file is gone; rows that are damaged, whose bodies are among the unknown.
    pub missing: u64,
    pub corrupt_rows: u64,
    /// Files that were no whole body, and were removed; names that aren't the folder's, and stay; directories and files that couldn't be read, and stay.
    pub corrupt: u64,
    pub foreign: u64,
    pub unread: u64,
}
/// Rows that are read at once.
const READ_AT_ONCE: usize = 32_768;

#[derive(Default)]
struct Scanner {
    told: Scan,
    found: Scanned,
    /// By the number of a row: whether its file is there.
    there: Vec<bool>,
    new: Vec<(Moment, Row)>,
    /// What the saved order says that all files take.
    counted: u64,
}
impl<D: Directory> BodyFolder<D> {
    /// Reads the saved order and lists the directories: it finds the bodies that came after the last save, removes what is no body, and lets the budget
    /// hold of cold bodies too. No lock is held but for moments. A second call does nothing.
    pub fn scan(&self, index: &impl HotIndex) -> io::Result<Scan> {
        let _one_at_a_time = held(&self.saving);
        self.scan_once(index)
    }
    pub(crate) fn scan_once(&self, index: &impl HotIndex) -> io::Result<Scan> {
        if held(&self.cold).is_scanned() {
            return Ok(Scan::default());
        }
        let mut scanner = Scanner::default();
        self.read_order(&mut scanner)?;
        let there: HashSet<String> = self.noted("list", "", self.directory.list(""))?.into_iter().collect();
        for (byte, directory) in directory_names().filter(|it| there.contains(&it.1)) {
            match self.noted("list", &directory, self.directory.list(&directory)) {
                Ok(names) => names.iter().for_each(|it| self.scan_name(&mut scanner, &directory, it)),
                Err(_) => {
                    scanner.told.unread += 1; // what it has may be there
                    scanner.found.unread.insert(byte);
                }
            }
        }
        let (mut told, counted, scanned) = scanner.finish();
        let mut cold = held(&self.cold);
        let sum = cold.replace(scanned);
        told.known = cold.len().saturating_sub(told.unknown);
        drop(cold);
        self.used.fetch_add(sum as i64 - counted as i64, Ordering::Relaxed);
        self.trim(index);
        Ok(told)
    }
    /// The rows of the saved order, most recently used first.
    fn read_order(&self, to: &mut Scanner) -> io::Result<()> {
        let file = match self.directory.open(ORDER, false) {
            Err(why) if why.kind() == ErrorKind::NotFound => return Ok(()),
            other => self.noted("open", ORDER, other)?,
        };
        let length = self.noted("stat", ORDER, self.directory.len(&file))?;
        let mut bytes = vec![0; ORDER_HEADER];
        let count = self.read(ORDER, &file, 0, &mut bytes)?;
        to.counted = OrderHeader::of(&bytes[..count]).map_or(0, |it| it.used);
        let mut at = ORDER_HEADER as u64;
        while at < length {
            bytes.resize(READ_AT_ONCE * ROW, 0);
            let count = self.read(ORDER, &file, at, &mut bytes)?;
            if count == 0 {
                break;
            }
            bytes[..count].chunks(ROW).for_each(|it| to.add_row(Row::of(it)));
            at += count as u64;
        }
        to.there = vec![false; to.found.rows.len()];
        Ok(())
    }
    fn scan_name(&self, to: &mut Scanner, directory: &str, name: &str) {
        let key = match key_of_name(name) {
            Some(key) if name.starts_with(directory) => key,
            _ => {
                to.told.foreign += 1;
                return;
            }
        };
        if let Some(number) = to.found.rows.number(&key) {
            to.there[number] = true;
            return;
        }
        if held(&self.cold).is_touched(&key) {
            return;
        }
        match self.contents(&key, false) {
            Ok(Contents::Missing) => {}
            Ok(Contents::Body(it)) => {
                let (partition, units) = (PartitionKey::of(&it.front.first), units(it.file_bytes()));
                to.new.push((it.slot.meta.updated, Row { key, partition, units }));
            }
            Ok(Contents::Corrupt) => to.told.corrupt += u64::from(self.remove_leftover(&key)),
            Err(_) => {
                to.told.unread += 1;
                to.found.unread.insert(key.0[0]);
            }
        }
    }
    /// A file under a key's name that is no body of it: it goes, unless it was replaced meanwhile. (What is hot was touched since the start.)
    fn remove_leftover(&self, key: &Digest) -> bool {
        self.with_key(key, |lock| match lock.contents() {
            Ok(Contents::Corrupt) if !held(&self.cold).is_touched(key) => {
                self.corrupt.fetch_add(1, Ordering::Relaxed);
                let name = name_of(key);
                self.noted("remove", &name, self.directory.remove(&name)).is_ok()
            }
            _ => false,
        })
    }
}
impl Scanner {
    fn add_row(&mut self, row: Option<Row>) {
        match row {
            Some(row) => {
                let _the_newer_one_stays = self.found.rows.push_oldest(row);
            }
            None => self.told.corrupt_rows += 1,
        }
    }
    /// What was found, without the rows whose files are gone. Bodies that no row names come after those that are named, by the moments of their heads.
    fn finish(mut self) -> (Scan, u64, Scanned) {
        let Scanned { mut rows, unread } = self.found;
        let is_gone = |it: &&Row| !unread.contains(&it.key.0[0]) && rows.number(&it.key).map_or(true, |it| !self.there[it]);
        let gone: Vec<Digest> = rows.iter().filter(is_gone).map(|it| it.key).collect();
        for it in &gone {
            let _row = rows.remove(it);
        }
        self.told.missing = gone.len() as u64;
        self.told.unknown = self.new.len() as u64;
        self.new.sort_by_key(|it| it.0);
        self.new.iter().for_each(|it| rows.push_newest(it.1));
        (self.told, self.counted, Scanned { rows, unread })
    }
}
