//! Images, the listing and the CRC-32.

mod common;

use model::draw::Draw;
use model::ground::Ground;
use model::listing::listing;
use model::{crc32, image};

const PAPER: [u8; 14] = [0, 0, 0, 7, 0, 1, 0x80, 0, 0, 5, 0, 0, 4, 0xB0];

#[test]
fn the_image_of_the_paper() {
    assert_eq!(image::read(&PAPER), Ok((7, vec![0x8000_0005_0000_04B0])));
    assert_eq!(image::write(7, &[0x8000_0005_0000_04B0]), PAPER);
    assert_eq!(listing(&PAPER), "state 7 offers 1\n5 1200\n");
}

#[test]
fn images_are_read_as_written() {
    for seed in 0..1000 {
        let mut draw = Draw::new(seed);
        let (state, words) = (draw.number(), draw.map(200));
        let bytes = image::write(state, &words);
        assert_eq!(bytes.len(), 6 + 8 * words.len());
        assert_eq!(image::read(&bytes), Ok((state, words)));
        assert_eq!(image::read(&bytes[..bytes.len() - 1]), Err(Ground::Image));
        assert_eq!(image::read(&[bytes, vec![0]].concat()), Err(Ground::Image));
    }
}

#[test]
fn what_can_be_read_is_written_the_same() {
    for seed in 0..3000 {
        let mut draw = Draw::new(seed);
        let mut bytes = image::write(draw.number(), &draw.map(6));
        for _ in 0..draw.rng.within(0, 2) {
            let at = draw.rng.below(bytes.len());
            bytes[at] ^= 1 << draw.rng.below(8);
        }
        if let Ok((state, words)) = image::read(&bytes) {
            assert_eq!(image::write(state, &words), bytes);
        }
    }
}

#[test]
fn listings_at_their_ends() {
    assert_eq!(listing(&[]), "refused 15\n");
    assert_eq!(listing(&[0; 6]), "state 0 offers 0\n");
    assert_eq!(listing(&[0; 64_006]), "refused 15\n");
    let words: Vec<u64> = (0..8001).map(|offer| model::word::entry(offer, Some(u32::MAX))).collect();
    let full = listing(&image::write(u32::MAX, &words[..8000]));
    assert!(full.starts_with("state 4294967295 offers 8000\n0 4294967295\n"));
    assert!(full.ends_with("\n7999 4294967295\n"));
    assert_eq!(listing(&image::write(1, &words)), "refused 15\n");
}

/// The stored cases of the listing program; their expected text was worked out by a tool in another language.
#[test]
fn stored_listings() {
    let cases = common::files("../tests/listing", "in");
    assert!(!cases.is_empty());
    for (file, input) in cases {
        let expected = std::fs::read_to_string(file.with_extension("out")).expect("each case has its text");
        assert_eq!(listing(&input), expected, "{}", file.display());
    }
}

#[test]
fn crc_of_zlib() {
    assert_eq!(crc32::of_bytes(*b"123456789"), 0xCBF4_3926);
    assert_eq!(crc32::of_bytes([]), 0);
    assert_eq!(crc32::of_words(&[0x3132_3334_3536_3738]), crc32::of_bytes(*b"12345678"));
    assert_eq!(crc32::of_words(&[0; 4]), 0x190A_55AD);
}
