//! A whole body, to be read.
use super::format::{block_len, blocks, check_at, checks_len, xxh64, Front, BLOCK};
use super::partitions::TOKEN;
use crate::response::Response;
use std::fmt;
use std::fs::File;
use std::io;
use std::sync::{Arc, Mutex, PoisonError};

/// Who reads the file of a body, and is told where it is corrupt.
pub(crate) trait ReadBody: Send + Sync {
    fn read_body(&self, file: &File, at: u64, buf: &mut [u8]) -> io::Result<usize>;
    fn found_corrupt(&self, front: &Front);
}
struct InFile {
    file: File,
    front: Front,
    of: Arc<dyn ReadBody>,
    seen: Mutex<Seen>,
}
/// The checks, once they were read, and the last block of which a part was asked for.
#[derive(Default)]
struct Seen {
    checks: Option<Vec<u8>>,
    block: Option<(u64, Vec<u8>)>,
}
/// A whole stored response: its head, and its body in a file or in memory. It can be read to its end whatever is purged or evicted meanwhile.
pub struct StoredBody {
    /// The head. (Its own body is the store's.)
    pub response: Response,
    file: Option<Box<InFile>>,
}
impl fmt::Debug for StoredBody {
    fn fmt(&self, f: &mut fmt::Formatter<'_>) -> fmt::Result {
        write!(f, "StoredBody({} bytes{})", self.len(), if self.file.is_some() { " in a file" } else { "" })
    }
}
fn corrupt() -> io::Error {
    io::Error::new(io::ErrorKind::InvalidData, "the body's file is corrupt")
}
impl StoredBody {
    pub(crate) fn in_memory(response: Response) -> StoredBody {
        StoredBody { response, file: None }
    }
    pub(crate) fn in_file(response: Response, file: File, front: Front, of: Arc<dyn ReadBody>) -> StoredBody {
        StoredBody { response, file: Some(Box::new(InFile { file, front, of, seen: Mutex::default() })) }
    }
    pub fn len(&self) -> u64 {
        self.file.as_ref().map_or(self.response.body().len().saturating_sub(TOKEN) as u64, |it| it.front.length)
    }
    pub fn is_empty(&self) -> bool {
        self.len() == 0
    }
    /// The bytes, where they are in memory.
    pub fn bytes(&self) -> Option<&[u8]> {
        if self.file.is_some() {
            return None;
        }
        self.response.body().get(TOKEN..)
    }
    /// The file, and where the body begins in it, as for sendfile: what is read so isn't compared with the checks.
    pub fn file(&self) -> Option<(&File, u64)> {
        self.file.as_ref().map(|it| (&it.file, it.front.body_start()))
    }
    /// Fills the buffer from a place of the body on, and tells how many bytes it could. Each block is compared with its check; InvalidData: it is corrupt,
    /// and the body is stored no more.
    pub fn read_at(&self, at: u64, buf: &mut [u8]) -> io::Result<usize> {
        let count = self.len().saturating_sub(at).min(buf.len() as u64) as usize;
        match &self.file {
            None => {
                let bytes = self.bytes().unwrap_or_default();
                buf[..count].copy_from_slice(&bytes[at.min(bytes.len() as u64) as usize..][..count]);
                Ok(count)
            }
            Some(it) => it.read_at(at, &mut buf[..count]).map(|_| count),
        }
    }
    pub fn read_to_vec(&self) -> io::Result<Vec<u8>> {
        let mut all = vec![0; self.len() as usize]; // (the file has that length)
        self.read_at(0, &mut all).map(|_| all)
    }
}
impl InFile {
    fn read_at(&self, at: u64, buf: &mut [u8]) -> io::Result<()> {
        let mut done = 0;
        while done < buf.len() {
            let from = at + done as u64;
            let (block, skip) = (from / BLOCK, (from % BLOCK) as usize);
            let length = block_len(self.front.length, block);
            let part = (length - skip).min(buf.len() - done);
            if part == length {
                self.read_block(block, &mut buf[done..done + part])?;
            } else {
                self.read_part(block, length, skip, &mut buf[done..done + part])?;
            }
            done += part;
        }
        Ok(())
    }
    /// A part of a block: the whole of it is read, and kept for the next call.
    fn read_part(&self, block: u64, length: usize, skip: usize, buf: &mut [u8]) -> io::Result<()> {
        let last = self.seen.lock().unwrap_or_else(PoisonError::into_inner).block.take();
        let bytes = match last {
            Some((at, bytes)) if at == block => bytes,
            _ => {
                let mut bytes = vec![0; length];
                self.read_block(block, &mut bytes)?;
                bytes
            }
        };
        buf.copy_from_slice(&bytes[skip..skip + buf.len()]);
        self.seen.lock().unwrap_or_else(PoisonError::into_inner).block = Some((block, bytes));
        Ok(())
    }
    /// A whole block, compared.
    fn read_block(&self, block: u64, buf: &mut [u8]) -> io::Result<()> {
        let count = self.of.read_body(&self.file, self.front.body_start() + block * BLOCK, buf)?;
        if count == buf.len() && self.check(block)? == Some(xxh64(block, buf)) {
            return Ok(());
        }
        self.of.found_corrupt(&self.front);
        Err(corrupt())
    }
    fn check(&self, block: u64) -> io::Result<Option<u64>> {
        if blocks(self.front.length) == 1 {
            return Ok(Some(self.front.checks));
        }
        let mut seen = self.seen.lock().unwrap_or_else(PoisonError::into_inner);
        if seen.checks.is_none() {
            let mut all = vec![0; checks_len(self.front.length) as usize];
            let count = self.of.read_body(&self.file, self.front.body_start() + self.front.length, &mut all)?;
            if count == all.len() && xxh64(0, &all) == self.front.checks {
                seen.checks = Some(all);
            }
        }
        Ok(seen.checks.as_ref().map(|it| check_at(it, block)))
    }
}
