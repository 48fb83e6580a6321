//! Maps and sets in the order of insertion, made as the kit's are, since much of the time is spent
//! where they are in memory: keys and values in lists of their own, and a table of groups.
use super::lanes::lanes_with;
use super::{AllocError, AllocFailed, BuildHasher, Global, Hash, Hasher};

/// Twelve places of a table: the tags of hashes, four bytes that tell which hashes found no place
/// here, and the numbers of entries.
#[derive(Clone, Copy)]
struct Group {
    tags: [u8; 16],
    numbers: [u32; 12],
}

const EMPTY: Group = Group {
    tags: [0; 16],
    numbers: [0; 12],
};

impl Group {
    fn lanes(&self, tag: u8) -> u32 {
        lanes_with(&self.tags, tag) & 0xfff
    }

    fn overflowed(&self) -> u32 {
        u32::from_le_bytes([self.tags[12], self.tags[13], self.tags[14], self.tags[15]])
    }
}

fn tag_of(hash: u32) -> u8 {
    ((hash >> 24) as u8).max(1)
}

/// Puts the number of an entry into its place in a table that has room.
fn place(groups: &mut [Group], hash: u32, number: usize) {
    let last = groups.len() - 1;
    let mut at = hash as usize & last;
    loop {
        let group = &mut groups[at];
        let empty = group.lanes(0);
        if empty != 0 {
            let lane = empty.trailing_zeros() as usize;
            group.tags[lane] = tag_of(hash);
            group.numbers[lane] = number as u32;
            return;
        }
        let marks = group.overflowed() | 1 << (tag_of(hash) & 31);
        group.tags[12..].copy_from_slice(&marks.to_le_bytes());
        at = (at + 1) & last;
    }
}

pub struct IndexMap<K, V, S> {
    hasher: S,
    groups: Vec<Group>,
    hashes: Vec<u32>,
    keys: Vec<K>,
    values: Vec<V>,
}

impl<K: Hash + Eq, V, S: BuildHasher> IndexMap<K, V, S> {
    pub fn with_hasher(_: Global, hasher: S) -> Self {
        IndexMap {
            hasher,
            groups: Vec::new(),
            hashes: Vec::new(),
            keys: Vec::new(),
            values: Vec::new(),
        }
    }

    pub fn len(&self) -> usize {
        self.keys.len()
    }

    fn hash_of(&self, key: &K) -> u32 {
        let mut state = self.hasher.build_hasher();
        key.hash(&mut state);
        let hash = state.finish();
        (hash ^ (hash >> 32)) as u32
    }

    fn number_of(&self, key: &K) -> Option<usize> {
        self.find(self.hash_of(key), key)
    }

    #[inline(always)]
    fn find(&self, hash: u32, key: &K) -> Option<usize> {
        let last = self.groups.len().checked_sub(1)?;
        let tag = tag_of(hash);
        let mut at = hash as usize & last;
        loop {
            let group = &self.groups[at];
            let mut lanes = group.lanes(tag);
            while lanes != 0 {
                let number = group.numbers[lanes.trailing_zeros() as usize] as usize;
                if self.keys[number] == *key {
                    return Some(number);
                }
                lanes &= lanes - 1;
            }
            if group.overflowed() >> (tag & 31) & 1 == 0 {
                return None;
            }
            at = (at + 1) & last;
        }
    }

    pub fn get(&self, key: &K) -> Option<&V> {
        Some(&self.values[self.number_of(key)?])
    }

    pub fn get_mut(&mut self, key: &K) -> Option<&mut V> {
        let number = self.number_of(key)?;
        Some(&mut self.values[number])
    }

    /// Makes a table with room for so many entries, and puts those that there are into it.
    fn grow_table(&mut self, wanted: usize) -> Result<(), AllocError> {
        let count = wanted.max(2 * self.keys.len()).div_ceil(9).next_power_of_two();
        let mut groups = Vec::new();
        groups.try_reserve_exact(count)?;
        groups.resize(count, EMPTY);
        for (number, hash) in self.hashes.iter().enumerate() {
            place(&mut groups, *hash, number);
        }
        self.groups = groups;
        Ok(())
    }

    pub fn reserve(&mut self, more: usize) -> Result<(), AllocError> {
        let wanted = self.keys.len().checked_add(more).ok_or(AllocError)?;
        self.keys.try_reserve(more)?;
        self.values.try_reserve(more)?;
        self.hashes.try_reserve(more)?;
        if wanted > 9 * self.groups.len() {
            self.grow_table(wanted)?;
        }
        Ok(())
    }

    fn spare(&self) -> usize {
        let len = self.keys.len();
        (self.keys.capacity() - len)
            .min(self.values.capacity() - len)
            .min(self.hashes.capacity() - len)
            .min(9 * self.groups.len() - len)
    }

    #[inline(always)]
    fn put(&mut self, key: K, value: V) -> Result<(usize, Option<V>), AllocFailed<(K, V)>> {
        let hash = self.hash_of(&key);
        if let Some(number) = self.find(hash, &key) {
            return Ok((number, Some(std::mem::replace(&mut self.values[number], value))));
        }
        if self.spare() == 0 && self.reserve(1).is_err() {
            return Err(AllocFailed { value: (key, value) });
        }
        let number = self.keys.len();
        place(&mut self.groups, hash, number);
        self.hashes.push(hash);
        self.keys.push(key);
        self.values.push(value);
        Ok((number, None))
    }

    pub fn insert(&mut self, key: K, value: V) -> Result<Option<V>, AllocFailed<(K, V)>> {
        Ok(self.put(key, value)?.1)
    }
}

pub struct IndexSet<K, S>(IndexMap<K, (), S>);

impl<K: Hash + Eq, S: BuildHasher> IndexSet<K, S> {
    pub fn with_hasher(alloc: Global, hasher: S) -> Self {
        IndexSet(IndexMap::with_hasher(alloc, hasher))
    }

    pub fn with_capacity_and_hasher(
        alloc: Global,
        count: usize,
        hasher: S,
    ) -> Result<Self, AllocError> {
        let mut set = IndexSet::with_hasher(alloc, hasher);
        set.reserve(count)?;
        Ok(set)
    }

    pub fn contains(&self, key: &K) -> bool {
        self.0.number_of(key).is_some()
    }

    pub fn len(&self) -> usize {
        self.0.len()
    }

    pub fn get_index_of(&self, key: &K) -> Option<usize> {
        self.0.number_of(key)
    }

    pub fn get_index(&self, place: usize) -> Option<&K> {
        self.0.keys.get(place)
    }

    pub fn reserve(&mut self, more: usize) -> Result<(), AllocError> {
        self.0.reserve(more)
    }

    pub fn insert(&mut self, key: K) -> Result<bool, AllocFailed<K>> {
        match self.0.insert(key, ()) {
            Ok(old) => Ok(old.is_none()),
            Err(AllocFailed { value }) => Err(AllocFailed { value: value.0 }),
        }
    }

    pub fn insert_full(&mut self, key: K) -> Result<(usize, bool), AllocFailed<K>> {
        match self.0.put(key, ()) {
            Ok((number, old)) => Ok((number, old.is_none())),
            Err(AllocFailed { value }) => Err(AllocFailed { value: value.0 }),
        }
    }
}
