//! Stand-in for `rustc_hash`: std's hash tables with a fixed seed.
//!
//! slice.rs and snap.rs only insert and look up, and never walk a table, so the hash
//! function cannot show in an answer.

use std::collections::hash_map::DefaultHasher;
use std::collections::{HashMap, HashSet};
use std::hash::BuildHasherDefault;

pub type FxHashMap<K, V> = HashMap<K, V, BuildHasherDefault<DefaultHasher>>;
pub type FxHashSet<T> = HashSet<T, BuildHasherDefault<DefaultHasher>>;
