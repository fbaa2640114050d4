//! Multicast groups.

/// A set of multicast groups: numbers from 1 on.
#[derive(Clone, Debug, Default, PartialEq, Eq)]
pub struct Groups(Vec<u32>);

impl Groups {
    /// No group.
    pub fn empty() -> Self {
        Groups::default()
    }

    /// The groups whose bits are set: group 1 has the lowest.
    pub fn new_bitmask(mask: u32) -> Self {
        Groups((1..=32).filter(|group| mask >> (group - 1) & 1 == 1).collect())
    }

    /// The groups of these numbers; 0 is none.
    pub fn new_groups(groups: &[u32]) -> Self {
        let mut made = Groups::empty();
        made.add_groups(groups);
        made
    }

    /// Adds the groups of these numbers; 0 is none.
    pub fn add_groups(&mut self, groups: &[u32]) {
        for group in groups {
            if *group != 0 && !self.0.contains(group) {
                self.0.push(*group);
            }
        }
    }

    /// Takes out the groups of these numbers.
    pub fn remove_groups(&mut self, groups: &[u32]) {
        self.0.retain(|group| !groups.contains(group));
    }

    /// The numbers of the groups.
    pub fn as_groups(&self) -> &[u32] {
        &self.0
    }

    /// Whether there is none.
    pub fn is_empty(&self) -> bool {
        self.0.is_empty()
    }
}

/// The groups that a socket is in, a bit each.
#[derive(Clone, Debug, Default, PartialEq, Eq)]
pub struct NetlinkBitArray(Vec<u32>);

impl NetlinkBitArray {
    pub(crate) fn of_words(words: Vec<u32>) -> Self {
        NetlinkBitArray(words)
    }

    /// The groups of these numbers.
    pub(crate) fn of_groups(groups: impl IntoIterator<Item = u32>) -> Self {
        let mut words = Vec::new();
        for bit in groups.into_iter().filter_map(|it| it.checked_sub(1)) {
            let word = bit as usize / 32;
            words.resize(words.len().max(word + 1), 0);
            words[word] |= 1 << (bit % 32);
        }
        NetlinkBitArray(words)
    }

    /// Whether a group is among them.
    pub fn is_set(&self, group: usize) -> bool {
        let Some(bit) = group.checked_sub(1) else { return false };
        self.0.get(bit / 32).is_some_and(|word| word >> (bit % 32) & 1 == 1)
    }

    /// The numbers of the groups.
    pub fn to_vec(&self) -> Vec<u32> {
        (1..=self.0.len() * 32).filter(|group| self.is_set(*group)).map(|group| group as u32).collect()
    }
}
