//! Bodies in files. Each file tells all that is needed to find its body again and is named by its key, so the folder itself is the index, and a start
//! reads 512 bytes.
//!
//! What was used since the start is *hot*: the tier has its head, and of its body the id of its file (or, of a small one, its bytes too). What wasn't is
//! *cold*: its file, and a row of the saved order of use. A look-up of a cold key opens the file by the key's name and puts it back into the tier. What
//! the tier evicts is cold again. Past the budget cold bodies go first, the one used longest ago before all others, then what the tier evicts.
//!
//! In two layers: [`BodyFolder`] has files, fronts, checks, cold rows, name locks and the order of use, and asks a [`HotIndex`] what is hot; [`FileStore`]
//! is a set of tiers over it, with look-ups, fetches, those who follow them, and wakers.
mod body_file;
mod cold;
mod directory;
mod disk;
mod evict;
mod fetch;
mod flight;
mod folder;
mod format;
mod index;
mod key_lock;
mod landing;
mod lookup;
mod new_body;
mod partitions;
mod revive;
mod rows;
mod save;
mod scan;
mod store;
mod stored_body;
mod waits;

pub use body_file::{BodyFile, Contents};
pub use directory::Directory;
pub use disk::{DiskDirectory, MARKER};
pub use fetch::{Begin, Fetch, Finish, WhyNotStored};
pub use flight::{Follower, ReadProgress};
pub use folder::{BodyFolder, FolderOptions, FolderStats, Recovery, SyncPolicy};
pub use format::{file_bytes, FileId};
pub use index::{BodyKey, HotEntry, HotIndex, PartitionKey, Purged, StoreError};
pub use key_lock::KeyLock;
pub use lookup::Lookup;
pub use new_body::{NewBody, SealedBody};
pub use scan::Scan;
pub use store::{FileStore, StoreOptions, StoreStats};
pub use stored_body::StoredBody;
pub use waits::LockWait;
