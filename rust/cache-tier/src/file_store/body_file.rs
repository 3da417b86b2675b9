//! A body's file: what its first bytes tell, and the comparison of its blocks.
use super::directory::Directory;
use super::folder::{name_of, BodyFolder};
use super::format::{block_len, blocks, check_at, checks_len, file_bytes, text_of_record, valid_slot, xxh64, FileId, Front, Slot, BLOCK, FRONT, MAX_TEXT};
use crate::given::{Digest, Meta};
use std::fmt;
use std::fs::File;
use std::io::{self, ErrorKind};

/// What lies under a key's name.
#[derive(Debug)]
#[allow(clippy::large_enum_variant)] // it is taken apart at once
pub enum Contents {
    Missing,
    /// Not a whole body of this key: a leftover, or of a broken disk.
    Corrupt,
    Body(BodyFile),
}
/// An open file of a body.
pub struct BodyFile {
    pub(crate) file: File,
    pub(crate) front: Front,
    pub(crate) slot: Slot,
    pub(crate) slot_place: u8,
    text: Option<Vec<u8>>,
}
impl fmt::Debug for BodyFile {
    fn fmt(&self, f: &mut fmt::Formatter<'_>) -> fmt::Result {
        write!(f, "BodyFile({}, {} bytes)", self.front.key, self.front.length)
    }
}
impl BodyFile {
    pub fn id(&self) -> FileId {
        self.front.id
    }
    pub fn length(&self) -> u64 {
        self.front.length
    }
    /// What the file takes of the disk.
    pub fn file_bytes(&self) -> u64 {
        file_bytes(self.front.size())
    }
    /// With its empty line.
    pub fn head(&self) -> &[u8] {
        &self.slot.head
    }
    pub fn meta(&self) -> Meta {
        self.slot.meta
    }
    /// The text of its key; none: it is damaged.
    pub fn text(&self) -> Option<&[u8]> {
        self.text.as_deref()
    }
}
/// Whether the sizes are such as this program writes, so that so much may be read.
fn is_sound(front: &Front) -> bool {
    front.slot <= 1 << 24 && front.text as usize <= MAX_TEXT + 10
}
impl<D: Directory> BodyFolder<D> {
    /// A key's file, with its head.
    pub fn contents(&self, key: &Digest, write: bool) -> io::Result<Contents> {
        let name = name_of(key);
        let file = match self.directory.open(&name, write) {
            Err(why) if why.kind() == ErrorKind::NotFound => return Ok(Contents::Missing),
            other => self.noted("open", &name, other)?,
        };
        let (mut first, mut more) = ([0; 4096], Vec::new()); // (in few of the heap's blocks: many heads are alive between them)
        let count = self.read(&name, &file, 0, &mut first)?;
        let front = match Front::of(&first[..count]) {
            Some(it) if it.key == *key && is_sound(&it) => it,
            _ => return Ok(Contents::Corrupt),
        };
        if front.size() != self.noted("stat", &name, self.directory.len(&file))? {
            return Ok(Contents::Corrupt);
        }
        let bytes = if front.body_start() > count as u64 {
            more.extend_from_slice(&first[..count]);
            more.resize(front.body_start() as usize, 0);
            let rest = self.read(&name, &file, count as u64, &mut more[count..])?;
            &more[..count + rest]
        } else {
            &first[..count]
        };
        Ok(match valid_slot(&front, bytes) {
            Some((slot, slot_place)) => {
                let text = bytes.get(FRONT..front.slot_start(0) as usize).and_then(|it| text_of_record(&front.id, it));
                Contents::Body(BodyFile { file, front, slot, slot_place, text })
            }
            None => Contents::Corrupt,
        })
    }
    /// A key's file, where it has that id: no head is read. None: it isn't there, or has another's bytes (yet, or any more).
    pub(crate) fn open_id(&self, key: &Digest, id: &FileId) -> io::Result<Option<(File, Front)>> {
        let name = name_of(key);
        let file = match self.directory.open(&name, false) {
            Err(why) if why.kind() == ErrorKind::NotFound => return Ok(None),
            other => self.noted("open", &name, other)?,
        };
        let mut bytes = [0; FRONT];
        let count = self.read(&name, &file, 0, &mut bytes)?;
        let length = self.noted("stat", &name, self.directory.len(&file))?;
        let is = |it: &Front| it.id == *id && it.size() == length;
        Ok(Front::of(&bytes[..count]).filter(is).map(|front| (file, front)))
    }
    /// Whether a file has all of its body, by its checks.
    pub(crate) fn is_whole(&self, file: &File, front: &Front) -> io::Result<bool> {
        let (name, one) = (name_of(&front.key), blocks(front.length) == 1);
        let mut checks = vec![0; checks_len(front.length) as usize];
        let from = front.body_start();
        if !one && (self.read(&name, file, from + front.length, &mut checks)? != checks.len() || xxh64(0, &checks) != front.checks) {
            return Ok(false);
        }
        let mut buf = vec![0; front.length.min(BLOCK) as usize];
        for block in 0..blocks(front.length) {
            let length = block_len(front.length, block);
            let count = self.read(&name, file, from + block * BLOCK, &mut buf[..length])?;
            let wanted = if one { front.checks } else { check_at(&checks, block) };
            if count != length || xxh64(block, &buf[..length]) != wanted {
                return Ok(false);
            }
        }
        Ok(true)
    }
}
