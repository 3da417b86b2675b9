//! Bodies in files. `FILE_STORE_TESTS`: where the rooms of the tests lie; `FILE_STORE_WHOLE`: each call is tried, where else some are.
#![cfg(feature = "file_store")]
mod attacks;
mod body_folder;
mod calls;
mod common;
mod damage;
mod directories;
mod errors;
mod findings;
mod findings_api;
mod kills;
mod limits;
mod order;
mod pairs;
mod power;
mod waits;
