//! A body as it comes, and those who read behind it.
use super::folder::held;
use super::format::FileId;
use super::stored_body::ReadBody;
use crate::response::Response;
use std::collections::{HashMap, VecDeque};
use std::fmt;
use std::fs::File;
use std::io;
use std::sync::{Arc, Mutex};
use std::task::Waker;

pub(crate) struct Flight {
    pub id: FileId,
    file: Arc<File>,
    body_start: u64,
    pub announced: Option<u64>,
    now: Mutex<Now>,
    max_tail: usize,
}
#[derive(Default)]
struct Now {
    /// Bytes that came; bytes that are in the file.
    came: u64,
    filed: u64,
    /// Those after `filed` that are kept, and the place of the first.
    tail: VecDeque<u8>,
    tail_start: u64,
    /// Whether what came is the whole body, once no more comes.
    ended: Option<bool>,
    /// Where each follower is, and who waits for more.
    followers: HashMap<u64, u64>,
    next: u64,
    wakers: HashMap<u64, Waker>,
}
fn wake(wakers: HashMap<u64, Waker>) {
    wakers.into_values().for_each(Waker::wake);
}
impl Flight {
    pub fn new(id: FileId, file: Arc<File>, body_start: u64, announced: Option<u64>, max_tail: usize) -> Flight {
        Flight { id, file, body_start, announced, now: Mutex::default(), max_tail }
    }
    pub fn came(&self) -> u64 {
        held(&self.now).came
    }
    /// No more comes. A second call does nothing.
    pub fn end(&self, complete: bool) {
        let mut now = held(&self.now);
        if now.ended.is_none() {
            now.ended = Some(complete);
            let wakers = std::mem::take(&mut now.wakers);
            drop(now);
            wake(wakers);
        }
    }
    /// More is in the file.
    pub fn add_filed(&self, count: u64) {
        let mut now = held(&self.now);
        now.came += count;
        now.filed = now.came;
        now.tail_start = now.came;
        let wakers = std::mem::take(&mut now.wakers);
        drop(now);
        wake(wakers);
    }
    /// More came that isn't stored: it is kept for who follows, as far as that goes. Who is further behind is cut off.
    pub fn add_unfiled(&self, bytes: &[u8]) {
        let mut now = held(&self.now);
        now.came += bytes.len() as u64;
        if now.followers.is_empty() {
            now.tail.clear();
            now.tail_start = now.came;
        } else {
            now.tail.extend(bytes);
            let slowest = now.followers.values().copied().min().unwrap_or(now.came);
            let read = (slowest.saturating_sub(now.tail_start) as usize).min(now.tail.len());
            let over = (now.tail.len() - read).saturating_sub(self.max_tail);
            now.tail.drain(..read + over);
            now.tail_start += (read + over) as u64;
        }
        let wakers = std::mem::take(&mut now.wakers);
        drop(now);
        wake(wakers);
    }
    /// Bytes in memory that the slowest follower hasn't read.
    pub fn lag(&self) -> u64 {
        let now = held(&self.now);
        let slowest = now.followers.values().copied().min().unwrap_or(now.came);
        now.came.saturating_sub(slowest.max(now.filed))
    }
}

/// Reads on behind another's fetch. It holds no request and no descriptor of its own.
pub struct Follower {
    of: Arc<Flight>,
    by: Arc<dyn ReadBody>,
    /// The head of what is fetched.
    pub response: Response,
    number: u64,
    at: u64,
}
impl fmt::Debug for Follower {
    fn fmt(&self, f: &mut fmt::Formatter<'_>) -> fmt::Result {
        write!(f, "Follower(at {})", self.at)
    }
}
/// What a follower got.
#[derive(Clone, Copy, Debug, PartialEq, Eq)]
pub enum ReadProgress {
    /// So many bytes.
    Data(usize),
    /// More may come.
    Pending,
    /// `complete`: what was read is a whole body; else its fetch was given up, or the storing ended and this one was too slow.
    End { complete: bool },
}
/// Where the next bytes of a follower are.
enum Next {
    File(usize),
    Read(ReadProgress),
}
impl Follower {
    pub(crate) fn new(of: Arc<Flight>, by: Arc<dyn ReadBody>, response: Response) -> Follower {
        let number = {
            let mut now = held(&of.now);
            let number = now.next;
            now.next += 1;
            now.followers.insert(number, 0);
            number
        };
        Follower { of, by, response, number, at: 0 }
    }
    /// Of the whole body, as it was announced.
    pub fn length(&self) -> Option<u64> {
        self.of.announced
    }
    pub fn read(&mut self, buf: &mut [u8]) -> io::Result<ReadProgress> {
        self.step(buf, None)
    }
    /// The same; where it is pending the waker is woken once it isn't.
    pub fn poll_with(&mut self, buf: &mut [u8], waker: &Waker) -> io::Result<ReadProgress> {
        self.step(buf, Some(waker))
    }
    fn step(&mut self, buf: &mut [u8], waker: Option<&Waker>) -> io::Result<ReadProgress> {
        let count = match self.next(buf, waker) {
            Next::Read(ReadProgress::Data(count)) => count,
            Next::Read(other) => return Ok(other),
            Next::File(count) => {
                if self.by.read_body(&self.of.file, self.of.body_start + self.at, &mut buf[..count])? != count {
                    return Err(io::ErrorKind::UnexpectedEof.into());
                }
                count
            }
        };
        self.at += count as u64;
        held(&self.of.now).followers.insert(self.number, self.at);
        Ok(ReadProgress::Data(count))
    }
    fn next(&self, buf: &mut [u8], waker: Option<&Waker>) -> Next {
        let mut now = held(&self.of.now);
        if self.at < now.filed {
            return Next::File((now.filed - self.at).min(buf.len() as u64) as usize);
        }
        if self.at < now.came {
            if self.at < now.tail_start {
                return Next::Read(ReadProgress::End { complete: false }); // it was too slow
            }
            let skip = (self.at - now.tail_start) as usize;
            let count = (now.tail.len() - skip).min(buf.len());
            buf.iter_mut().zip(now.tail.iter().skip(skip)).for_each(|(to, from)| *to = *from);
            return Next::Read(ReadProgress::Data(count));
        }
        if let Some(complete) = now.ended {
            return Next::Read(ReadProgress::End { complete });
        }
        // (A waker may own a follower of this flight, so none is dropped under the lock.)
        let _old = waker.and_then(|it| now.wakers.insert(self.number, it.clone()));
        drop(now);
        Next::Read(ReadProgress::Pending)
    }
}
impl Drop for Follower {
    fn drop(&mut self) {
        let mut now = held(&self.of.now);
        now.followers.remove(&self.number);
        let _waker = now.wakers.remove(&self.number);
        drop(now);
    }
}
