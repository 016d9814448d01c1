//! What tests of drawn calls share.

use std::collections::BTreeMap;

/// How often each case came.
#[derive(Default)]
pub struct Seen(BTreeMap<String, usize>);

impl Seen {
    pub fn see(&mut self, name: impl Into<String>, is: bool) {
        *self.0.entry(name.into()).or_default() += usize::from(is);
    }

    /// Every case that was asked for came.
    pub fn all(&self, times: usize) {
        let rare: Vec<_> = self.0.iter().filter(|(_, n)| **n < times).collect();
        assert!(!self.0.is_empty() && rare.is_empty(), "{rare:?}");
    }
}
