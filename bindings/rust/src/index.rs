use core::fmt;

use crate::{family_of, label_at, Family, ENTRY_NUMBERS};

/// The index of a bundle: what each message is and where it stands.
#[derive(Clone, Copy, PartialEq, Eq)]
pub struct Index<'t, 'n> {
    pub(crate) text: &'t [u8],
    /// The count, and then six numbers for each message.
    pub(crate) table: &'n [u32],
}

/// A message of a bundle.
#[derive(Debug, Clone, Copy, PartialEq, Eq)]
pub struct Entry<'t> {
    /// Where the message starts in the bundle.
    pub start: usize,
    /// The message's own part of the bundle, which [`read`](crate::read()) takes.
    pub text: &'t [u8],
    /// Its label.
    pub label: &'t str,
    /// Where its label starts in the bundle.
    pub label_offset: usize,
    /// How many bytes its data have.
    pub data_size: usize,
    /// Which family its label is of.
    pub family: Family,
}

impl<'t, 'n> Index<'t, 'n> {
    /// How many messages the bundle has.
    pub fn len(&self) -> usize {
        self.table[0] as usize
    }

    /// Whether it has none.
    pub fn is_empty(&self) -> bool {
        self.len() == 0
    }

    /// The message with `k` others before it.
    pub fn get(&self, k: usize) -> Option<Entry<'t>> {
        let numbers = self.table[1..].chunks_exact(ENTRY_NUMBERS).nth(k)?;
        let [start, length, label_offset, label_length, data_size] = [0, 1, 2, 3, 4].map(|i| numbers[i] as usize);
        Some(Entry {
            start,
            text: &self.text[start..start + length],
            label: label_at(self.text, label_offset, label_length),
            label_offset,
            data_size,
            family: family_of(numbers[5]),
        })
    }

    /// The messages, in their order.
    pub fn iter(&self) -> Entries<'t, 'n> {
        Entries { index: *self, next: 0 }
    }

    /// The numbers of the index: the count, and for each message its start, length, label offset, label length, data size and
    /// family.
    pub fn table(&self) -> &'n [u32] {
        self.table
    }
}

impl fmt::Debug for Index<'_, '_> {
    fn fmt(&self, f: &mut fmt::Formatter<'_>) -> fmt::Result {
        f.debug_list().entries(*self).finish()
    }
}

impl<'t, 'n> IntoIterator for Index<'t, 'n> {
    type Item = Entry<'t>;
    type IntoIter = Entries<'t, 'n>;

    fn into_iter(self) -> Entries<'t, 'n> {
        self.iter()
    }
}

/// The messages of a bundle, in their order.
#[derive(Debug, Clone)]
pub struct Entries<'t, 'n> {
    index: Index<'t, 'n>,
    next: usize,
}

impl<'t> Iterator for Entries<'t, '_> {
    type Item = Entry<'t>;

    fn next(&mut self) -> Option<Entry<'t>> {
        let entry = self.index.get(self.next)?;
        self.next += 1;
        Some(entry)
    }

    fn size_hint(&self) -> (usize, Option<usize>) {
        let left = self.index.len() - self.next;
        (left, Some(left))
    }
}

impl ExactSizeIterator for Entries<'_, '_> {}
