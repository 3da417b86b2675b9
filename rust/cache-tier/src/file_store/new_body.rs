//! A body that comes: a file without a key's name.
use super::directory::Directory;
use super::folder::{unfinished_name, BodyFolder, SyncPolicy, UNFINISHED};
use super::format::{file_bytes, slot_size, text_record, text_record_len, BlockChecks, FileId, Front, Slot, MAX_TEXT};
use super::index::BodyKey;
use super::key_lock::KeyLock;
use crate::given::Meta;
use std::fmt;
use std::fs::File;
use std::io::{self, ErrorKind};
use std::sync::Arc;

/// From this length on room is taken for a file at once.
const RESERVED_FROM: u64 = 256 * 1024;

/// The file of a body that comes.
pub struct NewBody {
    pub(crate) file: Arc<File>,
    /// Length, span and checks are filled in at its seal.
    front: Front,
    text: Vec<u8>,
    checks: BlockChecks,
}
impl fmt::Debug for NewBody {
    fn fmt(&self, f: &mut fmt::Formatter<'_>) -> fmt::Result {
        write!(f, "NewBody({} bytes)", self.front.length)
    }
}
/// A whole file that has no key's name yet.
#[derive(Debug)]
pub struct SealedBody {
    pub(crate) id: FileId,
    pub(crate) file_bytes: u64,
}
impl SealedBody {
    /// What it takes of the disk.
    pub fn file_bytes(&self) -> u64 {
        self.file_bytes
    }
}
impl NewBody {
    pub fn id(&self) -> FileId {
        self.front.id
    }
    /// What came.
    pub fn length(&self) -> u64 {
        self.front.length
    }
    /// Where the body begins.
    pub(crate) fn body_start(&self) -> u64 {
        self.front.body_start()
    }
    /// What its file takes if it grows to that length.
    pub(crate) fn file_bytes(&self, length: u64) -> u64 {
        file_bytes(Front { length, ..self.front }.size())
    }
}
impl<D: Directory> BodyFolder<D> {
    /// Makes the file of a body. `id`: never used before; `head`: the length of its head; `length`: of the body, where it is known.
    pub fn create(&self, id: &FileId, key: &BodyKey<'_>, head: usize, length: Option<u64>) -> io::Result<NewBody> {
        let text = if key.text.len() <= MAX_TEXT { key.text.to_vec() } else { Vec::new() };
        let front = Front {
            id: *id,
            key: key.key,
            first: key.first,
            boot: self.boot,
            span: 0,
            length: 0,
            slot: slot_size(head),
            text: text_record_len(&text),
            checks: 0,
        };
        let name = unfinished_name(id);
        let file = match self.directory.create(&name) {
            Err(why) if why.kind() == ErrorKind::NotFound => {
                let again = self.directory.create_directory(UNFINISHED).and_then(|_| self.directory.create(&name));
                self.noted("create", &name, again)?
            }
            other => self.noted("create", &name, other)?,
        };
        if let Some(length) = length.filter(|it| *it >= RESERVED_FROM) {
            let size = Front { length, ..front }.size();
            if let Err(why) = self.noted("reserve", &name, self.directory.reserve(&file, size)) {
                self.discard(id);
                return Err(why);
            }
        }
        Ok(NewBody { file: Arc::new(file), front, text, checks: BlockChecks::default() })
    }
    /// Adds bytes. Where it fails nothing was added.
    pub fn append(&self, body: &mut NewBody, bytes: &[u8]) -> io::Result<()> {
        let at = body.front.body_start() + body.front.length;
        self.noted("write", "a body", self.directory.write_at(&body.file, at, bytes))?;
        body.checks.add(bytes);
        body.front.length += bytes.len() as u64;
        Ok(())
    }
    /// Ends the file, and runs what gives it its key's name (`KeyLock::store`), within the lock of that. What isn't stored is to be discarded.
    pub fn finish<R>(
        &self,
        body: &mut NewBody,
        head: &[u8],
        meta: &Meta,
        run: impl FnOnce(&KeyLock<'_, D>, &SealedBody) -> R,
    ) -> io::Result<R> {
        let span = self.span();
        let sealed = self.seal(body, *span, head, meta)?;
        Ok(self.with_key_in(span, &body.front.key, |lock| run(lock, &sealed)))
    }
    /// Checks, then the front. The span is held till the file has its key's name.
    fn seal(&self, body: &mut NewBody, span: u64, head: &[u8], meta: &Meta) -> io::Result<SealedBody> {
        let (checks, own) = std::mem::take(&mut body.checks).finish();
        let front = Front { span, checks: own, ..body.front };
        let mut first = front.bytes();
        first.extend_from_slice(&text_record(&front.id, &body.text));
        first.extend_from_slice(&Slot::bytes(1, (front.boot, span), meta, head, &front.id));
        first.resize(front.body_start() as usize, 0);
        let written = || -> io::Result<()> {
            if !checks.is_empty() {
                self.directory.write_at(&body.file, front.body_start() + front.length, &checks)?;
            }
            self.directory.write_at(&body.file, 0, &first)?;
            if self.options.sync == SyncPolicy::EachBody {
                self.directory.sync(&body.file)?;
            }
            Ok(())
        };
        self.noted("write", &unfinished_name(&front.id), written())?;
        Ok(SealedBody { id: front.id, file_bytes: file_bytes(front.size()) })
    }
    /// Removes a file that gets no key's name.
    pub fn discard(&self, id: &FileId) {
        let _removed_by_the_next_open = self.directory.remove(&unfinished_name(id));
    }
}
