//! Changes composed, and applied to a map.

use super::word::{is_put, offer};

/// The composition of the steps that start at a journal word and end at the marks: the run is halved until single steps remain.
pub fn composed(journal: &[u64], start: usize, ends: &[usize]) -> Vec<u64> {
    match *ends {
        [] => Vec::new(),
        [end] => journal[start..end].to_vec(),
        _ => {
            let (older, newer) = ends.split_at(ends.len() / 2);
            let middle = older[older.len() - 1];
            compose(&composed(journal, start, older), &composed(journal, middle, newer))
        }
    }
}

/// The composition of an earlier and a later list: the later word wins. No branch depends on what is compared.
fn compose(earlier: &[u64], later: &[u64]) -> Vec<u64> {
    let mut words = Vec::with_capacity(earlier.len() + later.len());
    let (mut i, mut j) = (0, 0);
    while i < earlier.len() && j < later.len() {
        let (here, there) = (offer(earlier[i]), offer(later[j]));
        words.push(if here < there { earlier[i] } else { later[j] });
        i += usize::from(here <= there);
        j += usize::from(there <= here);
    }
    words.extend_from_slice(&earlier[i..]);
    words.extend_from_slice(&later[j..]);
    words
}

/// The words of a map with changes applied. What lies between two changed offers is copied as it is.
pub fn applied(map: &[u64], changes: &[u64]) -> Vec<u64> {
    let mut words = Vec::with_capacity(map.len() + changes.len());
    let mut rest = map;
    for &change in changes {
        let below = rest.iter().position(|&word| offer(word) >= offer(change)).unwrap_or(rest.len());
        let (kept, above) = rest.split_at(below);
        words.extend_from_slice(kept);
        if is_put(change) {
            words.push(change);
        }
        rest = match above {
            [word, above @ ..] if offer(*word) == offer(change) => above,
            above => above,
        };
    }
    words.extend_from_slice(rest);
    words
}
