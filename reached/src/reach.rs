//! What promises and contracts reach: from the roots on, all that an entry's text mentions, and all
//! that those mention, to the end.

use crate::repository::{Item, Repository};
use std::collections::{BTreeMap, BTreeSet};

/// What is reached, each with those that mention it.
#[derive(Default)]
pub struct Reached {
    pub items: BTreeMap<Item, BTreeSet<Item>>,
    /// Laws that are mentioned by what is no proof: none should be.
    pub laws: BTreeMap<Item, BTreeSet<Item>>,
}

/// Of a law that is a root only the statement counts.
pub fn reach(repository: &Repository, roots: &[Item]) -> Result<Reached, String> {
    let mut all = Reached::default();
    let mut left: Vec<Item> = Vec::new();
    for root in roots {
        all.items.entry(root.clone()).or_default();
        left.push(root.clone());
    }
    while let Some(item) = left.pop() {
        for next in repository.mentioned(&item)? {
            let is_law = repository.entry(&next).is_some_and(|entry| entry.law);
            if is_law && !roots.contains(&next) {
                all.laws.entry(next).or_default().insert(item.clone());
                continue;
            }
            if !all.items.contains_key(&next) {
                left.push(next.clone());
            }
            all.items.entry(next).or_default().insert(item.clone());
        }
    }
    Ok(all)
}
