//! What to do about a key.
use super::directory::Directory;
use super::disk::DiskDirectory;
use super::fetch::Fetch;
use super::flight::Follower;
use super::folder::held;
use super::format::FileId;
use super::index::{BodyKey, StoreError};
use super::partitions::id_of;
use super::revive::{changes_always, LOOKS};
use super::store::{FileStore, Inner};
use super::stored_body::StoredBody;
use super::waits::LockWait;
use crate::given::Moment;
use crate::partitions::Request;
use crate::response::Response;
use crate::tier::{self, Read};
use crate::words::{Error, Permit};
use std::fmt;
use std::sync::Arc;

/// What to do about a key.
#[allow(clippy::large_enum_variant)] // it is taken apart at once
pub enum Lookup<D: Directory = DiskDirectory> {
    /// It is fresh and whole.
    Hit(StoredBody),
    /// Another fetches it: its head and length are there; read on behind it.
    Follow(Follower),
    /// Fetch it.
    Miss(Fetch<D>),
    /// It is stale: fetch or revalidate it; within its windows the body may answer meanwhile.
    Stale(StoredBody, Fetch<D>),
    /// Another fetches or revalidates it, and has no head yet: wait, and look again. A stale body may answer meanwhile.
    Wait(Option<StoredBody>, LockWait<D>),
}
impl<D: Directory> fmt::Debug for Lookup<D> {
    fn fmt(&self, f: &mut fmt::Formatter<'_>) -> fmt::Result {
        match self {
            Lookup::Hit(it) => write!(f, "Hit({:?})", it),
            Lookup::Follow(it) => write!(f, "Follow({:?})", it),
            Lookup::Miss(it) => write!(f, "Miss({:?})", it),
            Lookup::Stale(it, fetch) => write!(f, "Stale({:?}, {:?})", it, fetch),
            Lookup::Wait(it, wait) => write!(f, "Wait({:?}, {:?})", it, wait),
        }
    }
}
/// What one turn of the tier found.
enum Seen {
    Nothing,
    /// A finished body, and whether it is fresh.
    Body(bool, Response),
    /// A write in flight, by the id of its file.
    Flight(FileId, Response),
}
fn look(request: &mut Request, now: Option<Moment>, key: &BodyKey<'_>) -> Result<(Seen, Permit), Error> {
    request.with_tier(|tier, number| {
        let found = match now {
            Some(now) => tier.lookup(now, number)?,
            None => tier.lookup_stale(number)?,
        };
        let (permit, fresh) = (found.permit(), matches!(found, tier::Lookup::Fresh { .. }));
        let seen = match found {
            tier::Lookup::Miss { .. } => Seen::Nothing,
            tier::Lookup::Fresh { complete: false, response } | tier::Lookup::Stale { complete: false, response, .. } => match tier.read(number)? {
                Read::Data(it) if fresh || permit == Permit::Wait => id_of(it.body()).map_or(Seen::Nothing, |id| Seen::Flight(id, response)),
                _ => Seen::Nothing,
            },
            _ => tier.peek(&key.key)?.map_or(Seen::Nothing, |it| Seen::Body(fresh, it)),
        };
        Ok((seen, permit))
    })
}
impl<D: Directory> FileStore<D> {
    /// What to do about a key: a hit, or a request that has or waits for the permit to fetch it.
    pub fn lookup<'a>(&self, now: Moment, key: impl Into<BodyKey<'a>>) -> Result<Lookup<D>, StoreError> {
        let key = key.into();
        for _ in 0..LOOKS {
            if let Some(body) = self.inner.get(now, &key)? {
                return Ok(Lookup::Hit(body));
            }
            if let Some(it) = self.inner.look(Some(now), &key)? {
                return Ok(it);
            }
        }
        Err(changes_always(&key))
    }
    /// What to do where a client wants the origin's word about what may be fresh: a miss, or what there is, with a request that may revalidate or fetch
    /// it. It has no permit, and nobody waits for it.
    pub fn lookup_stale<'a>(&self, key: impl Into<BodyKey<'a>>) -> Result<Lookup<D>, StoreError> {
        let key = key.into();
        for _ in 0..LOOKS {
            self.inner.revive(&key)?;
            if let Some(it) = self.inner.look(None, &key)? {
                return Ok(it);
            }
        }
        Err(changes_always(&key))
    }
}
impl<D: Directory> Inner<D> {
    /// None: what was found has changed meanwhile: look again. `now`: none where what is found counts as stale.
    fn look(self: &Arc<Self>, now: Option<Moment>, key: &BodyKey<'_>) -> Result<Option<Lookup<D>>, StoreError> {
        let mut request = self.index.open(key, now.is_some())?;
        let (seen, permit) = look(&mut request, now, key)?;
        let (fresh, found) = match seen {
            Seen::Flight(id, found) => {
                let flight = held(&self.flights).get(&id).cloned();
                return Ok(flight.map(|it| Lookup::Follow(Follower::new(it, self.clone(), found))));
            }
            Seen::Nothing => return Ok(Some(self.without_body(key, request, permit))),
            Seen::Body(fresh, found) => (fresh, found),
        };
        let id = match id_of(found.body()) {
            Some(id) => id,
            None => return Ok(Some(self.without_body(key, request, permit))),
        };
        let body = match self.body_of(key, found) {
            Ok(Some(body)) => body,
            other => {
                drop(request);
                self.waits.wake(&key.key);
                other?;
                self.recheck(key, &id)?;
                return Ok(None);
            }
        };
        Ok(Some(match (fresh, permit) {
            (true, _) => Lookup::Hit(body),
            (false, Permit::Wait) => Lookup::Wait(Some(body), LockWait::new(self.clone(), key.key, request)),
            (false, _) => Lookup::Stale(body, Fetch::new(self.clone(), key, request)),
        }))
    }
    fn without_body(self: &Arc<Self>, key: &BodyKey<'_>, request: Request, permit: Permit) -> Lookup<D> {
        match permit {
            Permit::Wait => Lookup::Wait(None, LockWait::new(self.clone(), key.key, request)),
            _ => Lookup::Miss(Fetch::new(self.clone(), key, request)),
        }
    }
}
