//! What a call says first.
use super::raw::{BodyChunk, Message, RequestHead, ResponseHead, StoreDecision};

/// Its status, and the length of a buffer that suffices.
pub trait Told: Default {
    fn told(&self) -> (u64, u64);
}
macro_rules! told {
    ($($of:ident)*) => {
        $(impl Told for $of {
            fn told(&self) -> (u64, u64) {
                (self.status, self.buf_needed)
            }
        })*
    };
}
told! { RequestHead ResponseHead Message StoreDecision BodyChunk }
