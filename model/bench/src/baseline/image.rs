//! Images: state number 32 bits, count 16 bits, then the words of a map, most significant byte first.

use super::word;

/// The bytes before the words, and those of a word.
const HEADER: usize = 6;
const WORD: usize = 8;

/// The length of the image of so many words.
pub fn length(words: usize) -> usize {
    HEADER + WORD * words
}

/// An image: its state number, and the bytes of its words.
pub struct Image<'a> {
    pub state: u32,
    words: &'a [u8],
}

impl<'a> Image<'a> {
    /// The image that the bytes are, if its length, kinds and order of offers are right.
    pub fn tested(bytes: &'a [u8]) -> Option<Image<'a>> {
        let (header, words) = bytes.split_first_chunk::<HEADER>()?;
        let [a, b, c, d, count @ ..] = *header;
        let image = Image { state: u32::from_be_bytes([a, b, c, d]), words };
        let count = usize::from(u16::from_be_bytes(count));
        (words.len() == WORD * count && image.is_map()).then_some(image)
    }

    /// The image that bytes were written as.
    pub fn written(state: u32, bytes: &'a [u8]) -> Image<'a> {
        Image { state, words: &bytes[HEADER..] }
    }

    /// Kind and offer together rise strictly from a first word of kind 1 on.
    fn is_map(&self) -> bool {
        self.words().next().is_none_or(word::is_put)
            && self.words().map(|word| word >> 32).is_sorted_by(|a, b| a < b)
    }

    /// How many words the image has.
    pub fn count(&self) -> usize {
        self.words.len() / WORD
    }

    fn words(&self) -> impl Iterator<Item = u64> + 'a {
        self.words.chunks_exact(WORD).map(|bytes| u64::from_be_bytes(bytes.try_into().unwrap()))
    }

    /// Copies the words to the start of the table.
    pub fn read(&self, table: &mut [u64]) {
        table.iter_mut().zip(self.words()).for_each(|(to, word)| *to = word);
    }
}

/// Writes the image of a state number and a map's words to bytes of its length.
pub fn write(state: u32, words: &[u64], bytes: &mut [u8]) {
    let (header, body) = bytes.split_at_mut(HEADER);
    header[..4].copy_from_slice(&state.to_be_bytes());
    header[4..].copy_from_slice(&(words.len() as u16).to_be_bytes());
    for (to, word) in body.chunks_exact_mut(WORD).zip(words) {
        to.copy_from_slice(&word.to_be_bytes());
    }
}
