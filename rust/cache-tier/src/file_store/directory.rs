//! The calls of a directory, so that a test can count them, fail at one and end at one.
use std::fs::File;
use std::io;

/// What a folder of bodies asks of the directory that it lies in. A name is that of a file in it, or `xy/name` of one in a directory in it.
pub trait Directory: Send + Sync + 'static {
    /// Makes a file that isn't there, to read and write it.
    fn create(&self, name: &str) -> io::Result<File>;
    /// Opens a file; `write`: to write it too.
    fn open(&self, name: &str, write: bool) -> io::Result<File>;
    /// Fills the buffer from a place on, and tells how far the file went.
    fn read_at(&self, file: &File, at: u64, buf: &mut [u8]) -> io::Result<usize>;
    fn write_at(&self, file: &File, at: u64, bytes: &[u8]) -> io::Result<()>;
    fn len(&self, file: &File) -> io::Result<u64>;
    /// Of a file by its name; none: it isn't there.
    fn len_of(&self, name: &str) -> io::Result<Option<u64>>;
    /// Takes room for a file.
    fn reserve(&self, file: &File, length: u64) -> io::Result<()>;
    fn rename(&self, from: &str, to: &str) -> io::Result<()>;
    /// Whether it was there.
    fn remove(&self, name: &str) -> io::Result<bool>;
    /// The names in the directory itself (""), or in one in it.
    fn list(&self, directory: &str) -> io::Result<Vec<String>>;
    /// Makes a directory, where it isn't there.
    fn create_directory(&self, name: &str) -> io::Result<()>;
    fn sync(&self, file: &File) -> io::Result<()>;
    /// Makes renames and removals in a directory in it outlast a loss of power.
    fn sync_directory(&self, name: &str) -> io::Result<()>;
    /// Writes to the disk all that was written.
    fn sync_all(&self) -> io::Result<()>;
    /// Names this start of the machine: what was written in an earlier one may be torn, unless it was synced.
    fn boot(&self) -> u64;
}
