//! The order of use is written, for the next start. Bodies don't need it.
use super::directory::Directory;
use super::folder::{held, BodyFolder, SyncPolicy, ORDER, ORDER_NEXT};
use super::format::{OrderHeader, Row, ORDER_HEADER, ROW, UNIT};
use super::index::{HotEntry, HotIndex};
use super::key_lock::units;
use std::fs::File;
use std::io;
use std::sync::PoisonError;
use std::time::Instant;

/// Entries that are listed, and rows that are looked at, in one turn of a lock.
const AT_ONCE: usize = 100;
/// Bytes that are written at once.
const WRITTEN_AT_ONCE: usize = 1 << 20;

/// The rows as they are written behind the header.
struct Rows<'a, D: Directory> {
    directory: &'a D,
    file: File,
    at: u64,
    bytes: Vec<u8>,
    rows: u64,
    units: u64,
}
impl<D: Directory> Rows<'_, D> {
    fn add(&mut self, row: &Row) -> io::Result<()> {
        self.bytes.extend_from_slice(&row.bytes());
        self.rows += 1;
        self.units += u64::from(row.units);
        if self.bytes.len() + ROW > WRITTEN_AT_ONCE {
            self.write()?;
        }
        Ok(())
    }
    fn write(&mut self) -> io::Result<()> {
        self.directory.write_at(&self.file, self.at, &self.bytes)?;
        self.at += self.bytes.len() as u64;
        self.bytes.clear();
        Ok(())
    }
}
impl<D: Directory> BodyFolder<D> {
    /// Writes the order of use: at the end, and each minute. It holds the lock of a partition for 100 entries at a time. Returns how many bodies it named.
    /// Where it fails the last one stays.
    pub fn save(&self, index: &impl HotIndex) -> io::Result<u64> {
        let _one_at_a_time = held(&self.saving);
        self.scan_once(index)?;
        self.read_evicted(index);
        let saved = self.write_order(index);
        if saved.is_err() {
            let _removed_by_the_next_open = self.directory.remove(ORDER_NEXT);
        }
        self.noted("save", ORDER, saved)
    }
    fn write_order(&self, index: &impl HotIndex) -> io::Result<u64> {
        let span = self.end_span()?;
        let hot = list_hot(index)?;
        self.directory.remove(ORDER_NEXT)?;
        let file = self.directory.create(ORDER_NEXT)?;
        let mut rows = Rows { directory: &self.directory, file, at: ORDER_HEADER as u64, bytes: Vec::new(), rows: 0, units: 0 };
        for (_, row) in &hot {
            rows.add(row)?;
        }
        held(&self.cold).start_walk();
        loop {
            let cold = held(&self.cold).walk(AT_ONCE);
            if cold.is_empty() {
                break;
            }
            cold.iter().try_for_each(|it| rows.add(it))?;
        }
        rows.write()?;
        let header = OrderHeader { rows: rows.rows, used: rows.units * UNIT, span, boots: held(&self.boots).clone() };
        self.directory.write_at(&rows.file, 0, &header.bytes())?;
        self.directory.sync(&rows.file)?;
        self.directory.rename(ORDER_NEXT, ORDER)?;
        Ok(header.rows)
    }
    /// The next span begins. What has its name in a span has it before the next begins: so after the sync all of that span is on the disk.
    fn end_span(&self) -> io::Result<u64> {
        let span = {
            let mut now = self.span.write().unwrap_or_else(PoisonError::into_inner);
            *now += 1;
            *now - 1
        };
        if self.options.sync != SyncPolicy::Never {
            self.directory.sync_all()?;
            let mut boots = held(&self.boots);
            boots.retain(|it| it.0 != self.boot);
            boots.insert(0, (self.boot, span));
        }
        Ok(span)
    }
}
/// The hot bodies of all partitions in one order: keys go to partitions by a hash, so the same share of two lists was used at about the same time.
/// One partition after the other, and as long without a lock as with it: else who waits for one would wait for many turns.
fn list_hot(index: &impl HotIndex) -> io::Result<Vec<(f64, Row)>> {
    let (mut hot, mut part) = (Vec::new(), Vec::<HotEntry>::with_capacity(AT_ONCE));
    let mut counts = vec![u64::MAX; index.partitions()];
    let mut place = 0;
    while counts.iter().any(|it| *it > place) {
        for (partition, count) in counts.iter_mut().enumerate().filter(|it| *it.1 > place) {
            let began = Instant::now();
            let of_now = index.list(partition, place, AT_ONCE as u64, &mut part).map_err(|it| io::Error::new(io::ErrorKind::Other, it))?;
            if place == 0 {
                *count = of_now;
            }
            for (at, it) in part.drain(..).enumerate() {
                let row = Row { key: it.key, partition: it.partition, units: units(it.file_bytes) };
                hot.push(((place as f64 + at as f64 + 0.5) / *count as f64, row));
            }
            std::thread::sleep(began.elapsed());
        }
        place += AT_ONCE as u64;
    }
    hot.sort_by(|a, b| a.0.total_cmp(&b.0));
    Ok(hot)
}
