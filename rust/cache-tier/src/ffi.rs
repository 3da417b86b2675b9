//! All `unsafe` of the crate: the exports of the library, each as a safe call.
//!
//! A tier is called through `&mut Room`, so one call at a time is what the compiler checks. What a `Slice` shows is read while its owner is there:
//! of a `Held` as long as that lives, of the tier itself within the call.
#![allow(unsafe_code)]

mod exports;
#[cfg(cache_gateway)]
pub mod gateway;
#[cfg(cache_gateway)]
mod gateway_exports;
#[cfg(cache_rules)]
pub mod rules;

#[rustfmt::skip]
use self::exports::{
    cache_tier1_digest, cache_tier1_end, cache_tier1_init, cache_tier1_lru_file, cache_tier1_release, cache_tier1_sizeof, cache_tier1_version,
};
use crate::raw::{self, status, Entry, File, Keep, Options, Raw, Result as Answer, Slice};
use std::alloc::{alloc, dealloc, Layout};
use std::ptr::NonNull;

extern "C" {
    // of libc, for a directory of bodies
    #[cfg(feature = "file_store")]
    fn flock(file: i32, how: i32) -> i32;
    #[cfg(feature = "file_store")]
    fn syncfs(file: i32) -> i32;
    #[cfg(feature = "file_store")]
    fn fallocate(file: i32, how: i32, at: i64, length: i64) -> i32;
    #[cfg(feature = "file_store")]
    fn openat(directory: i32, name: *const std::os::raw::c_char, how: i32, ...) -> i32;
    #[cfg(feature = "file_store")]
    fn renameat(from: i32, old: *const std::os::raw::c_char, to: i32, new: *const std::os::raw::c_char) -> i32;
    #[cfg(feature = "file_store")]
    fn unlinkat(directory: i32, name: *const std::os::raw::c_char, how: i32) -> i32;
    #[cfg(feature = "file_store")]
    fn geteuid() -> u32;
}

pub fn version() -> u64 {
    unsafe { cache_tier1_version() }
}

pub fn digest(name: &[u8]) -> [u8; 16] {
    let mut out = [0; 16];
    unsafe { cache_tier1_digest(name.as_ptr(), name.len(), out.as_mut_ptr(), 16) };
    out
}

/// Takes the lock of an open file for this process, without waiting: false where another has it. The file's end gives it back.
#[cfg(feature = "file_store")]
pub fn locks(file: &std::fs::File) -> std::io::Result<bool> {
    use std::os::unix::io::AsRawFd;
    match called(|| unsafe { flock(file.as_raw_fd(), 2 | 4) }) {
        Err(why) if why.kind() == std::io::ErrorKind::WouldBlock => Ok(false),
        other => other.map(|_| true),
    }
}
/// Writes to the disk all that the file system of an open file has in memory.
#[cfg(feature = "file_store")]
pub fn sync_all(file: &std::fs::File) -> std::io::Result<()> {
    use std::os::unix::io::AsRawFd;
    match unsafe { syncfs(file.as_raw_fd()) } {
        0 => Ok(()),
        _ => Err(std::io::Error::last_os_error()),
    }
}
/// Takes room on the disk, without a change of the file's length.
#[cfg(feature = "file_store")]
pub fn reserve(file: &std::fs::File, length: u64) -> std::io::Result<()> {
    use std::os::unix::io::AsRawFd;
    let length = std::convert::TryFrom::try_from(length).unwrap_or(i64::MAX);
    match unsafe { fallocate(file.as_raw_fd(), 1, 0, length) } {
        0 => Ok(()),
        _ => Err(std::io::Error::last_os_error()),
    }
}

/// What a call of libc that gives -1 came to, again where a signal ended it.
#[cfg(feature = "file_store")]
fn called(mut run: impl FnMut() -> i32) -> std::io::Result<i32> {
    loop {
        let it = run();
        if it != -1 {
            return Ok(it);
        }
        let why = std::io::Error::last_os_error();
        if why.kind() != std::io::ErrorKind::Interrupted {
            return Err(why);
        }
    }
}
/// Opens a file of an open directory. `how`: Linux's flags; mode 0600 where it is made.
#[cfg(feature = "file_store")]
pub fn open_in(directory: &std::fs::File, name: &str, how: i32) -> std::io::Result<std::fs::File> {
    use std::os::unix::io::{AsRawFd, FromRawFd};
    let name = std::ffi::CString::new(name)?;
    let file = called(|| unsafe { openat(directory.as_raw_fd(), name.as_ptr(), how, 0o600u32) })?;
    Ok(unsafe { std::fs::File::from_raw_fd(file) }) // (opened here, and owned by nobody else)
}
/// Renames within an open directory.
#[cfg(feature = "file_store")]
pub fn rename_in(directory: &std::fs::File, from: &str, to: &str) -> std::io::Result<()> {
    use std::os::unix::io::AsRawFd;
    let (from, to, at) = (std::ffi::CString::new(from)?, std::ffi::CString::new(to)?, directory.as_raw_fd());
    called(|| unsafe { renameat(at, from.as_ptr(), at, to.as_ptr()) }).map(|_| ())
}
/// Removes a file of an open directory.
#[cfg(feature = "file_store")]
pub fn remove_in(directory: &std::fs::File, name: &str) -> std::io::Result<()> {
    use std::os::unix::io::AsRawFd;
    let name = std::ffi::CString::new(name)?;
    called(|| unsafe { unlinkat(directory.as_raw_fd(), name.as_ptr(), 0) }).map(|_| ())
}
/// The user that this process acts as.
#[cfg(feature = "file_store")]
pub fn user() -> u32 {
    unsafe { geteuid() }
}

/// A key as the exports take it.
pub struct Key<'a> {
    pub is_digest: u64,
    pub bytes: &'a [u8],
    pub user_tag: &'a str,
}

/// What a get, a lookup, a read or a peek handed over, with what keeps it. It may be moved, since one place alone owns it.
pub struct Held {
    pub raw: raw::Response,
    keep: Keep,
    held: bool,
}
// A place and a length: what lies there is read below alone, while its owner is there.
unsafe impl Send for Slice {}
unsafe impl Sync for Slice {}
// What it keeps is counted by atomics and never changed.
unsafe impl Send for Held {}
unsafe impl Sync for Held {}
impl Held {
    fn filled(by: impl FnOnce(*mut raw::Response, *mut u64)) -> Held {
        let mut made = Held { raw: raw::Response::ZERO, keep: [0; 12], held: false };
        by(&mut made.raw, made.keep.as_mut_ptr());
        made.held = made.raw.result.status == status::FOUND || made.raw.result.status == status::DATA;
        made
    }
    fn lent(&self, it: &Slice) -> &[u8] {
        if self.held && it.len != 0 {
            unsafe { std::slice::from_raw_parts(it.ptr, it.len) }
        } else {
            &[]
        }
    }
    pub fn body(&self) -> &[u8] {
        self.lent(&self.raw.body)
    }
    pub fn fields(&self) -> &[u8] {
        self.lent(&self.raw.head.fields)
    }
}
impl Drop for Held {
    fn drop(&mut self) {
        if self.held {
            unsafe { cache_tier1_release(self.keep.as_mut_ptr()) }
        }
    }
}

/// An entry's parts, copied.
pub struct OwnedEntry {
    pub foreign: bool,
    pub primary: Vec<u8>,
    pub variance: Vec<u8>,
    pub user_tag: Vec<u8>,
    pub external_bytes: u64,
}

/// A tier in memory of its own.
pub struct Room {
    at: NonNull<Raw>,
    layout: Layout,
}
// It has no state outside its room.
unsafe impl Send for Room {}

fn answered(by: impl FnOnce(*mut Answer)) -> Answer {
    let mut out = Answer::default();
    by(&mut out);
    out
}

/// A copy of an entry's parts, which the tier lends till its next event.
fn entry(by: impl FnOnce(*mut Entry)) -> Option<OwnedEntry> {
    let mut out = Entry::ZERO;
    by(&mut out);
    if out.status < status::FIRST_DONE {
        return None;
    }
    let copy = |it: &Slice| if it.len == 0 { Vec::new() } else { unsafe { std::slice::from_raw_parts(it.ptr, it.len) }.to_vec() };
    Some(OwnedEntry { foreign: out.foreign != 0, primary: copy(&out.primary), variance: copy(&out.variance), user_tag: copy(&out.user_tag), external_bytes: out.external_bytes })
}

impl Room {
    /// The tier, or the status of the refusal.
    pub fn new(options: &Options) -> Result<Room, u64> {
        let layout = Layout::from_size_align(unsafe { cache_tier1_sizeof() }, 16).map_err(|_| status::MEMORY)?;
        let at = NonNull::new(unsafe { alloc(layout) }.cast::<Raw>()).ok_or(status::MEMORY)?;
        let told = answered(|out| unsafe { cache_tier1_init(at.as_ptr(), options, out) }).status;
        if told == status::OK {
            return Ok(Room { at, layout });
        }
        unsafe { dealloc(at.as_ptr().cast(), layout) };
        Err(told)
    }
    /// A copy of a shard's file, or the status of the refusal.
    pub fn lru_file(&mut self, shard: u64) -> Result<Vec<u8>, u64> {
        let mut out = File::ZERO;
        unsafe { cache_tier1_lru_file(self.at.as_ptr(), shard, &mut out) };
        match (out.status < status::FIRST_DONE, out.content.len) {
            (true, _) => Err(out.status),
            (false, 0) => Ok(Vec::new()),
            (false, len) => Ok(unsafe { std::slice::from_raw_parts(out.content.ptr, len) }.to_vec()),
        }
    }
}
impl Drop for Room {
    fn drop(&mut self) {
        unsafe {
            cache_tier1_end(self.at.as_ptr());
            dealloc(self.at.as_ptr().cast(), self.layout);
        }
    }
}

/// A struct, and the text that its spans lie in.
#[cfg(cache_rules)]
pub struct Beside<'a, T> {
    pub raw: T,
    pub text: &'a [u8],
}
