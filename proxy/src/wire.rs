//! The bytes of a connection: what came and isn't done with, and what is sent. What they mean is the gateway's to say.
use std::cell::RefCell;
use std::io::{self, IoSlice};
use std::net::SocketAddr;
use std::pin::Pin;
use std::task::{Context, Poll};
use tokio::io::{AsyncRead, AsyncWrite, AsyncWriteExt, Interest, ReadBuf, Ready};
use tokio::net::{TcpStream, UnixStream};

/// A connection over TCP, or over a socket of this host.
pub enum Stream {
    Tcp(TcpStream),
    Unix(UnixStream),
}

impl Stream {
    pub fn peer(&self) -> Option<SocketAddr> {
        match self {
            Stream::Tcp(it) => it.peer_addr().ok(),
            Stream::Unix(_) => None,
        }
    }

    /// Whether nothing came, and the other side didn't end it.
    pub fn is_silent(&self) -> bool {
        let read = match self {
            Stream::Tcp(it) => it.try_read(&mut [0]),
            Stream::Unix(it) => it.try_read(&mut [0]),
        };
        matches!(read, Err(why) if why.kind() == io::ErrorKind::WouldBlock)
    }
}

macro_rules! of_both {
    ($own:expr, $it:ident => $run:expr) => {
        match $own {
            Stream::Tcp($it) => $run,
            Stream::Unix($it) => $run,
        }
    };
}

impl AsyncRead for Stream {
    fn poll_read(mut self: Pin<&mut Self>, cx: &mut Context<'_>, to: &mut ReadBuf<'_>) -> Poll<io::Result<()>> {
        of_both!(&mut *self, it => Pin::new(it).poll_read(cx, to))
    }
}

impl AsyncWrite for Stream {
    fn poll_write(mut self: Pin<&mut Self>, cx: &mut Context<'_>, from: &[u8]) -> Poll<io::Result<usize>> {
        of_both!(&mut *self, it => Pin::new(it).poll_write(cx, from))
    }

    fn poll_write_vectored(mut self: Pin<&mut Self>, cx: &mut Context<'_>, from: &[IoSlice<'_>]) -> Poll<io::Result<usize>> {
        of_both!(&mut *self, it => Pin::new(it).poll_write_vectored(cx, from))
    }

    fn is_write_vectored(&self) -> bool {
        true
    }

    fn poll_flush(mut self: Pin<&mut Self>, cx: &mut Context<'_>) -> Poll<io::Result<()>> {
        of_both!(&mut *self, it => Pin::new(it).poll_flush(cx))
    }

    fn poll_shutdown(mut self: Pin<&mut Self>, cx: &mut Context<'_>) -> Poll<io::Result<()>> {
        of_both!(&mut *self, it => Pin::new(it).poll_shutdown(cx))
    }
}

thread_local! {
    /// Buffers that no connection holds: who waits for a request holds none.
    static BUFFERS: RefCell<Vec<Vec<u8>>> = const { RefCell::new(Vec::new()) };
}
const MOST_KEPT: usize = 64;
const MOST_BUFFER: usize = 1 << 17;

fn take_buffer() -> Vec<u8> {
    let mut it = BUFFERS.with(|all| all.borrow_mut().pop()).unwrap_or_default();
    it.clear();
    it
}

fn give_buffer(it: Vec<u8>) {
    if it.capacity() == 0 || it.capacity() > MOST_BUFFER {
        return;
    }
    BUFFERS.with(|all| {
        let mut all = all.borrow_mut();
        if all.len() < MOST_KEPT {
            all.push(it);
        }
    });
}

/// The most pieces that one call sends.
const MOST_PARTS: usize = 32;

/// A connection with what came on it and isn't done with.
pub struct Wire {
    stream: Option<Stream>,
    bytes: Vec<u8>,
    at: usize,
    room: usize,
}

impl Wire {
    /// `room`: the bytes that one read takes at most.
    pub fn new(stream: Stream, room: usize) -> Wire {
        Wire { stream: Some(stream), bytes: Vec::new(), at: 0, room }
    }

    pub fn bytes(&self) -> &[u8] {
        &self.bytes[self.at..]
    }

    pub fn is_empty(&self) -> bool {
        self.at == self.bytes.len()
    }

    /// So many bytes are done with.
    pub fn consume(&mut self, count: usize) {
        self.at = (self.at + count).min(self.bytes.len());
        if self.is_empty() {
            self.bytes.clear();
            self.at = 0;
        }
    }

    /// Between two requests, where nothing waits.
    pub fn rest(&mut self) {
        if self.is_empty() {
            give_buffer(std::mem::take(&mut self.bytes));
            self.at = 0;
        }
    }

    /// The connection, unless it was taken away.
    pub fn take_stream(mut self) -> Option<Stream> {
        self.stream.take()
    }

    fn stream(&mut self) -> io::Result<&mut Stream> {
        self.stream.as_mut().ok_or_else(|| io::ErrorKind::NotConnected.into())
    }

    /// Waits until bytes can be read, or written; for neither for ever.
    pub async fn ready(&self, reads: bool, writes: bool) -> io::Result<Ready> {
        match (&self.stream, interest(reads, writes)) {
            (Some(Stream::Tcp(it)), Some(interest)) => it.ready(interest).await,
            (Some(Stream::Unix(it)), Some(interest)) => it.ready(interest).await,
            _ => std::future::pending().await,
        }
    }

    fn make_room(&mut self) {
        if self.at > 0 {
            self.bytes.drain(..self.at); // (what is left of a head, or of a chunk's line)
            self.at = 0;
        }
        if self.bytes.capacity() == 0 {
            self.bytes = take_buffer();
        }
        if self.bytes.capacity() - self.bytes.len() < self.room / 2 {
            self.bytes.reserve(self.room);
        }
    }

    /// Takes what is there: how many bytes, 0 where the other side ended it.
    pub fn try_receive(&mut self) -> io::Result<usize> {
        self.make_room();
        match &self.stream {
            Some(Stream::Tcp(it)) => it.try_read_buf(&mut self.bytes),
            Some(Stream::Unix(it)) => it.try_read_buf(&mut self.bytes),
            None => Ok(0),
        }
    }

    /// Sends what the kernel takes at once.
    pub fn try_send(&self, bytes: &[u8]) -> io::Result<usize> {
        match &self.stream {
            Some(Stream::Tcp(it)) => it.try_write(bytes),
            Some(Stream::Unix(it)) => it.try_write(bytes),
            None => Err(io::ErrorKind::NotConnected.into()),
        }
    }

    /// Sends what the kernel takes of these at once: how many bytes. (An error tells itself at the next call.)
    pub fn try_send_all(&self, parts: &[&[u8]]) -> usize {
        let mut slices = [IoSlice::new(&[]); MOST_PARTS];
        let count = parts.len().min(MOST_PARTS);
        for (to, part) in slices.iter_mut().zip(parts) {
            *to = IoSlice::new(part);
        }
        let wrote = match &self.stream {
            Some(Stream::Tcp(it)) => it.try_write_vectored(&slices[..count]),
            Some(Stream::Unix(it)) => it.try_write_vectored(&slices[..count]),
            None => Ok(0),
        };
        wrote.unwrap_or(0)
    }

    /// Waits for more: how many bytes came, 0 where the other side ended it. Nothing is lost where it is dropped before.
    pub async fn receive(&mut self) -> io::Result<usize> {
        loop {
            self.ready(true, false).await?;
            match self.try_receive() {
                Err(why) if why.kind() == io::ErrorKind::WouldBlock => {}
                other => return other,
            }
        }
    }

    /// Says that nothing more is sent.
    pub async fn shutdown(&mut self) -> io::Result<()> {
        self.stream()?.shutdown().await
    }

    /// Sends all of these, by as few calls as the kernel lets; `progress` is told of each how many bytes went.
    pub async fn send(&mut self, parts: &[&[u8]], mut progress: impl FnMut(usize)) -> io::Result<()> {
        let (mut first, mut from) = (0, 0);
        while first < parts.len() {
            let mut slices = [IoSlice::new(&[]); MOST_PARTS];
            let mut count = 0;
            for (at, part) in parts.iter().enumerate().skip(first).take(MOST_PARTS) {
                slices[count] = IoSlice::new(if at == first { &part[from..] } else { part });
                count += 1;
            }
            let mut wrote = self.stream()?.write_vectored(&slices[..count]).await?;
            if wrote == 0 && parts[first].len() > from {
                return Err(io::ErrorKind::WriteZero.into());
            }
            progress(wrote);
            while first < parts.len() && wrote >= parts[first].len() - from {
                wrote -= parts[first].len() - from;
                first += 1;
                from = 0;
            }
            from += wrote;
        }
        Ok(())
    }
}

impl Drop for Wire {
    fn drop(&mut self) {
        give_buffer(std::mem::take(&mut self.bytes));
    }
}

/// What a connection is waited for.
fn interest(reads: bool, writes: bool) -> Option<Interest> {
    match (reads, writes) {
        (true, true) => Some(Interest::READABLE | Interest::WRITABLE),
        (true, false) => Some(Interest::READABLE),
        (false, true) => Some(Interest::WRITABLE),
        (false, false) => None,
    }
}
