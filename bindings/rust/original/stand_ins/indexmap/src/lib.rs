//! As much of the crate `indexmap` as the original's tests use.
pub type IndexMap<K, V> = std::collections::BTreeMap<K, V>;
