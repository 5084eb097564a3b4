//! The three crates behind util.rs's aliases, as far as the cut code uses them, over std.
//!
//! The insertion-ordered map also counts: the only such map in the cut code is the one in which a merge pass gathers its
//! groups, made once a pass. That is how passes are known without a change in `remove_dup_vars`.

use std::cell::Cell;

pub(crate) mod hashbrown {
    pub(crate) use std::collections::{HashMap, HashSet};
}

pub(crate) mod rustc_hash {
    use std::hash::Hasher;

    /// Multiplies and rotates, to be about as fast as what it stands for. No answer hangs on which hash it is: nothing that
    /// is handed out follows the order of a hashed collection.
    #[derive(Debug, Clone, Copy, Default)]
    pub(crate) struct FxHasher(u64);

    const FACTOR: u64 = 0x9e37_79b9_7f4a_7c15;

    impl Hasher for FxHasher {
        fn write(&mut self, bytes: &[u8]) {
            bytes.iter().for_each(|&byte| self.write_u64(byte.into()));
        }

        fn write_u16(&mut self, number: u16) {
            self.write_u64(number.into());
        }

        fn write_u32(&mut self, number: u32) {
            self.write_u64(number.into());
        }

        fn write_u64(&mut self, number: u64) {
            self.0 = (self.0 ^ number).rotate_left(5).wrapping_mul(FACTOR);
        }

        fn write_usize(&mut self, number: usize) {
            self.write_u64(number as u64);
        }

        /// The product's high bits are its best, and the tables ask for low ones too.
        fn finish(&self) -> u64 {
            self.0.rotate_left(26)
        }
    }
}

pub(crate) mod indexmap {
    use std::collections::HashMap;
    use std::collections::hash_map;
    use std::hash::{BuildHasher, Hash};

    /// Values in the order in which their keys first came.
    #[derive(Debug, Clone)]
    pub(crate) struct IndexMap<K, V, S> {
        positions: HashMap<K, usize, S>,
        values: Vec<V>,
    }

    impl<K, V, S: Default> Default for IndexMap<K, V, S> {
        fn default() -> Self {
            super::note_map();
            IndexMap { positions: HashMap::default(), values: Vec::new() }
        }
    }

    impl<K: Eq + Hash, V, S: BuildHasher> IndexMap<K, V, S> {
        pub(crate) fn entry(&mut self, key: K) -> Entry<'_, K, V> {
            Entry { position: self.positions.entry(key), values: &mut self.values }
        }
    }

    impl<K, V, S> IndexMap<K, V, S> {
        pub(crate) fn values(&self) -> impl Iterator<Item = &V> {
            self.values.iter()
        }
    }

    pub(crate) struct Entry<'a, K, V> {
        position: hash_map::Entry<'a, K, usize>,
        values: &'a mut Vec<V>,
    }

    impl<'a, K, V: Default> Entry<'a, K, V> {
        pub(crate) fn or_default(self) -> &'a mut V {
            let next = self.values.len();
            let position = *self.position.or_insert(next);
            if position == next {
                self.values.push(V::default());
            }
            &mut self.values[position]
        }
    }

    /// The cut code asks only what is in it, never in which order.
    #[derive(Debug, Clone, Default)]
    pub(crate) struct IndexSet<K, S>(std::collections::HashSet<K, S>);

    impl<K: Eq + Hash, S: BuildHasher> IndexSet<K, S> {
        pub(crate) fn contains(&self, key: &K) -> bool {
            self.0.contains(key)
        }

        pub(crate) fn insert(&mut self, key: K) -> bool {
            self.0.insert(key)
        }
    }

    impl<K: Eq + Hash, S: BuildHasher + Default> FromIterator<K> for IndexSet<K, S> {
        fn from_iter<I: IntoIterator<Item = K>>(keys: I) -> Self {
            IndexSet(keys.into_iter().collect())
        }
    }
}

thread_local! {
    static MAPS: Cell<usize> = const { Cell::new(0) };
}

fn note_map() {
    MAPS.set(MAPS.get() + 1);
}

/// What `run` returns, and how many insertion-ordered maps it made on this thread.
pub(crate) fn counting_maps<T>(run: impl FnOnce() -> T) -> (T, usize) {
    let before = MAPS.get();
    let result = run();
    (result, MAPS.get() - before)
}
