//! A directory of the disk.
use super::directory::Directory;
use super::format::xxh64;
use crate::ffi;
use std::collections::hash_map::RandomState;
use std::fs::{self, DirBuilder, File, OpenOptions};
use std::hash::{BuildHasher, Hasher};
use std::io::{self, ErrorKind};
use std::os::unix::fs::{DirBuilderExt, FileExt, MetadataExt, OpenOptionsExt};
use std::os::unix::io::AsRawFd;
use std::path::{Path, PathBuf};

/// The file that marks a directory as one of bodies, and is locked by the program that uses it.
pub const MARKER: &str = "cache-tier-bodies";
const FORMAT: &[u8] = b"cache-tier bodies, format 2\n";
// Flags of Linux on x86-64. No link is followed, no pipe waited for, and no child has a descriptor.
const WRITE: i32 = 0o2;
const CREATE: i32 = 0o100;
const NEW: i32 = 0o200;
const NO_WAIT: i32 = 0o4_000;
const DIRECTORY: i32 = 0o200_000;
const NO_FOLLOW: i32 = 0o400_000;
const OWN: i32 = 0o2_000_000;
const NOT_SUPPORTED: i32 = 95;

/// A directory of the disk, of mode 0700 and of one program at a time. It is held open: what its path names later makes no difference.
#[derive(Debug)]
pub struct DiskDirectory {
    directory: File,
    _marker: File,
}
fn refused(why: &str) -> io::Error {
    io::Error::new(ErrorKind::PermissionDenied, why)
}
fn unless<T>(kind: ErrorKind, instead: T, it: io::Result<T>) -> io::Result<T> {
    match it {
        Err(why) if why.kind() == kind => Ok(instead),
        other => other,
    }
}
/// Whether a name is that of a directory of bodies, or of the unfinished.
pub(crate) fn is_part(name: &str) -> bool {
    name == "new" || name.len() == 2 && name.bytes().all(|it| matches!(it, b'0'..=b'9' | b'a'..=b'f'))
}
/// Refuses a directory that has files, but no marker (a `lost+found` may be there), and one of which a part is a link: what lies behind it is another's.
fn refuse_foreign(directory: &File, marked: bool) -> io::Result<()> {
    for it in fs::read_dir(path_in(directory, ""))? {
        let it = it?;
        let name = it.file_name();
        if !marked && name != "lost+found" {
            return Err(refused("the directory isn't empty, and has no marker of bodies"));
        }
        if name.to_str().map_or(false, is_part) && it.file_type()?.is_symlink() {
            return Err(refused("a part of the directory is a link"));
        }
    }
    Ok(())
}
/// A path that leads into an open directory, wherever that lies by now.
fn path_in(directory: &File, name: &str) -> PathBuf {
    PathBuf::from(format!("/proc/self/fd/{}/{}", directory.as_raw_fd(), name))
}
fn open_marker(directory: &File) -> io::Result<File> {
    let how = WRITE | NO_FOLLOW | NO_WAIT | OWN;
    let there = unless(ErrorKind::NotFound, None, ffi::open_in(directory, MARKER, how).map(Some))?;
    refuse_foreign(directory, there.is_some())?;
    there.map_or_else(|| ffi::open_in(directory, MARKER, how | CREATE), Ok)
}
/// Whether these are what a loss of power left of the marker: a part of it, then zeros.
fn is_torn(marker: &[u8]) -> bool {
    let zeros = marker.iter().rev().take_while(|it| **it == 0).count();
    marker.len() <= FORMAT.len() && FORMAT.starts_with(&marker[..marker.len() - zeros])
}
/// Names a start of the machine. Where that isn't known it is a word of this process alone: so what is found was written in another one.
fn boot_of(told: io::Result<Vec<u8>>) -> u64 {
    match told {
        Ok(it) if !it.is_empty() => xxh64(0, &it),
        _ => RandomState::new().build_hasher().finish(),
    }
}
impl DiskDirectory {
    /// Makes the directory where it isn't there. Refused where it is a link, another user's, open to others, in use, of another format, or neither
    /// empty nor marked as a directory of bodies.
    pub fn open(path: impl AsRef<Path>) -> io::Result<DiskDirectory> {
        let path = path.as_ref();
        unless(ErrorKind::AlreadyExists, (), DirBuilder::new().mode(0o700).create(path))?;
        let directory = OpenOptions::new().read(true).custom_flags(NO_FOLLOW | DIRECTORY).open(path)?;
        let about = directory.metadata()?;
        if about.mode() & 0o077 != 0 || about.uid() != ffi::user() {
            return Err(refused("it is no directory of this user alone (mode 0700)"));
        }
        // (the directory too, since a marker may be removed; but not every file system locks one)
        let in_use = || io::Error::new(ErrorKind::WouldBlock, "another program uses the directory");
        if matches!(ffi::locks(&directory), Ok(false)) {
            return Err(in_use());
        }
        let marker = open_marker(&directory)?;
        if !ffi::locks(&marker)? {
            return Err(in_use());
        }
        let mut format = [0; FORMAT.len() + 1];
        let count = marker.read_at(&mut format, 0)?;
        match &format[..count] {
            FORMAT => {}
            it if is_torn(it) => marker.write_all_at(FORMAT, 0)?, // (new, or of a first start that was killed)
            _ => return Err(refused("the directory is of another format")),
        }
        Ok(DiskDirectory { directory, _marker: marker })
    }
    fn path(&self, name: &str) -> PathBuf {
        path_in(&self.directory, name)
    }
}
impl Directory for DiskDirectory {
    fn create(&self, name: &str) -> io::Result<File> {
        ffi::open_in(&self.directory, name, WRITE | CREATE | NEW | NO_FOLLOW | OWN)
    }
    fn open(&self, name: &str, write: bool) -> io::Result<File> {
        ffi::open_in(&self.directory, name, if write { WRITE } else { 0 } | NO_FOLLOW | NO_WAIT | OWN)
    }
    fn read_at(&self, file: &File, at: u64, buf: &mut [u8]) -> io::Result<usize> {
        let mut done = 0;
        while done < buf.len() {
            match file.read_at(&mut buf[done..], at + done as u64) {
                Ok(0) => break,
                Ok(count) => done += count,
                Err(why) if why.kind() == ErrorKind::Interrupted => {}
                Err(why) => return Err(why),
            }
        }
        Ok(done)
    }
    fn write_at(&self, file: &File, at: u64, bytes: &[u8]) -> io::Result<()> {
        file.write_all_at(bytes, at)
    }
    fn len(&self, file: &File) -> io::Result<u64> {
        Ok(file.metadata()?.len())
    }
    fn len_of(&self, name: &str) -> io::Result<Option<u64>> {
        unless(ErrorKind::NotFound, None, fs::symlink_metadata(self.path(name)).map(|it| Some(it.len())))
    }
    fn reserve(&self, file: &File, length: u64) -> io::Result<()> {
        match ffi::reserve(file, length) {
            // of a file system that can't, or ended by a signal: the writes take it as they come
            Err(why) if why.raw_os_error() == Some(NOT_SUPPORTED) || why.kind() == ErrorKind::Interrupted => Ok(()),
            other => other,
        }
    }
    fn rename(&self, from: &str, to: &str) -> io::Result<()> {
        ffi::rename_in(&self.directory, from, to)
    }
    fn remove(&self, name: &str) -> io::Result<bool> {
        unless(ErrorKind::NotFound, false, ffi::remove_in(&self.directory, name).map(|_| true))
    }
    fn list(&self, directory: &str) -> io::Result<Vec<String>> {
        fs::read_dir(self.path(directory))?.map(|it| Ok(it?.file_name().to_string_lossy().into_owned())).collect()
    }
    fn create_directory(&self, name: &str) -> io::Result<()> {
        let path = self.path(name);
        match DirBuilder::new().mode(0o700).create(&path) {
            Err(why) if why.kind() == ErrorKind::AlreadyExists && fs::symlink_metadata(&path)?.is_dir() => Ok(()),
            other => other,
        }
    }
    fn sync(&self, file: &File) -> io::Result<()> {
        file.sync_data()
    }
    fn sync_directory(&self, name: &str) -> io::Result<()> {
        File::open(self.path(name))?.sync_all()
    }
    fn sync_all(&self) -> io::Result<()> {
        ffi::sync_all(&self.directory)
    }
    fn boot(&self) -> u64 {
        boot_of(fs::read("/proc/sys/kernel/random/boot_id"))
    }
}

#[cfg(test)]
mod tests {
    use super::*;
    #[test]
    fn a_start_that_isnt_known_is_no_earlier_one() {
        let unknown = || boot_of(Err(ErrorKind::NotFound.into()));
        assert!(unknown() != unknown() && boot_of(Ok(vec![])) != boot_of(Ok(vec![])));
        assert_eq!(boot_of(Ok(b"a".to_vec())), boot_of(Ok(b"a".to_vec())));
    }
    #[test]
    fn a_torn_marker_is_known() {
        for length in 0..=FORMAT.len() {
            let mut it = FORMAT.to_vec();
            it[length..].iter_mut().for_each(|it| *it = 0);
            assert!(is_torn(&it) && is_torn(&FORMAT[..length]));
        }
        assert!(!is_torn(b"cache-tier bodies, format 9\n") && !is_torn(b"x") && !is_torn(&[0; FORMAT.len() + 1]));
    }
}
