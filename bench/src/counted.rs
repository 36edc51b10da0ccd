//! A ranked phrase as it is ordinarily found in Rust, over postings that are decoded: the starts of each bar counted, then a sort.

/// A decoded posting of either build of the original.
pub trait Posting {
    fn id(&self) -> u32;
    fn positions(&self) -> &[u32];
}

/// At how many starts the names stand on consecutive steps, given the steps of each.
fn starts(own: &[&[u32]]) -> u32 {
    let on = |step: Option<u32>, at: &[u32]| step.is_some_and(|step| at.binary_search(&step).is_ok());
    let fits = |start: u32| (1..).zip(&own[1..]).all(|(i, at)| on(start.checked_add(i), at));
    own[0].iter().filter(|start| fits(**start)).count() as u32
}

/// Those of these bars in which the phrase fits, each with its starts. The ids rise; each name has its postings.
pub fn counted<P: Posting>(ids: impl IntoIterator<Item = u32>, lists: &[&[P]]) -> Vec<(u32, u32)> {
    let mut ahead = lists.to_vec();
    let mut own = Vec::with_capacity(lists.len());
    let mut found = Vec::new();
    'bars: for id in ids {
        own.clear();
        for list in &mut ahead {
            let passed = list.iter().take_while(|posting| posting.id() < id).count();
            *list = &list[passed..];
            match list.first() {
                Some(posting) if posting.id() == id => own.push(posting.positions()),
                _ => continue 'bars,
            }
        }
        let count = starts(&own);
        if count > 0 {
            found.push((id, count));
        }
    }
    found
}

/// The higher count first, of equal counts the lower id.
pub fn sort(found: &mut [(u32, u32)]) {
    found.sort_unstable_by_key(|&(id, count)| u64::from(!count) << 32 | u64::from(id));
}
