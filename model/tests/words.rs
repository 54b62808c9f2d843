//! The entry word, lists, and the laws of changes (document 000, equations 1 and 2).

use model::changes::{apply, changes_of, compose, map_of, map_words, read, words_of, Changes};
use model::draw::Draw;
use model::word::{self, entry, is_entry, is_list, is_map};

#[test]
fn the_word_of_moment_2() {
    assert_eq!(entry(5, Some(1200)), 0x8000_0005_0000_04B0);
    assert_eq!(entry(5, None), 0x0000_0005_0000_0000);
}

#[test]
fn fields_at_their_ends() {
    let word = entry(word::OFFERS - 1, Some(u32::MAX));
    assert_eq!(word, u64::MAX);
    assert_eq!((word::kind(word), word::offer(word), word::price(word)), (1, 0x7FFF_FFFF, u32::MAX));
    assert_eq!((word::kind(0), word::offer(0), word::price(0)), (0, 0, 0));
}

#[test]
fn price_0_is_a_price() {
    assert_eq!(word::shown(entry(5, Some(0))), Some(0));
    assert_eq!(word::shown(entry(5, None)), None);
    assert!(is_entry(entry(5, Some(0))) && is_entry(0) && !is_entry(1));
}

#[test]
fn rules_of_lists() {
    let puts: Vec<u64> = (0..65).map(|offer| entry(offer, Some(1))).collect();
    assert!(is_list(&[]) && is_list(&puts[..1]) && is_list(&puts[..64]) && !is_list(&puts));
    assert!(!is_list(&[puts[1], puts[0]]) && !is_list(&[puts[1], puts[1]]));
    assert!(!is_list(&[entry(1, Some(7)), entry(1, None)]));
    assert!(is_map(&puts) && !is_map(&[entry(1, None)]));
}

#[test]
fn laws_of_changes() {
    for seed in 0..2000 {
        let mut draw = Draw::new(seed);
        let map = map_of(&draw.map(100));
        let [a, b, c] = [0; 3].map(|_| changes_of(&draw.changes()));
        assert_eq!(apply(&map, &Changes::new()), map);
        assert_eq!(apply(&apply(&map, &a), &b), apply(&map, &compose(&a, &b)));
        assert_eq!(compose(&compose(&a, &b), &c), compose(&a, &compose(&b, &c)));
        assert_eq!(compose(&a, &Changes::new()), a);
        assert_eq!(compose(&Changes::new(), &a), a);
        assert_eq!(changes_of(&words_of(&a)), a);
        assert_eq!(map_of(&map_words(&map)), map);
        let offers: Vec<u32> = a.keys().copied().collect();
        assert_eq!(read(&apply(&map, &a), &offers), words_of(&a));
    }
}
