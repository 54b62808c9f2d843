//! The calls of a store at rest: clear, load, write an image or a sheet, restart.

use super::changes::applied;
use super::head::{Head, Tally};
use super::image::{self, Image};
use super::refusal::Refusal;
use super::sheet::{self, Sheet};
use super::store::Store;

impl Store<'_> {
    /// The empty map as state 0, with a depth.
    pub fn clear(&mut self, depth: u32) -> Result<(), Refusal> {
        self.test_lengths_and_depth(depth)?;
        self.table.fill(0);
        self.rest(0, 0, depth);
        Ok(())
    }

    /// The map of an image under its number, with a depth.
    pub fn load(&mut self, depth: u32, bytes: &[u8]) -> Result<(), Refusal> {
        self.test_lengths_and_depth(depth)?;
        let image = Image::tested(bytes).ok_or(Refusal::BadImage)?;
        Refusal::TableFull.unless(image.count() <= self.table.len())?;
        self.fill(&image, depth);
        Ok(())
    }

    /// The map of a sheet under its number, with a depth.
    pub fn load_sheet(&mut self, depth: u32, bytes: &[u8]) -> Result<(), Refusal> {
        self.test_lengths_and_depth(depth)?;
        let sheet = Sheet::tested(bytes).ok_or(Refusal::BadImage)?;
        Refusal::TableFull.unless(sheet.count <= self.table.len())?;
        sheet.read(self.table);
        self.table[sheet.count..].fill(0);
        self.rest(sheet.state, sheet.count, depth);
        Ok(())
    }

    /// Writes the image of the tip to the start of the bytes, and gives its length.
    pub fn write_image(&self, bytes: &mut [u8]) -> Result<usize, Refusal> {
        self.test_store()?;
        self.put(put_image, self.head.tip, bytes)
    }

    /// Writes the image of a state to the start of the bytes, and gives its length.
    pub fn write_state_image(&self, state: u32, bytes: &mut [u8]) -> Result<usize, Refusal> {
        self.test_store()?;
        self.test_state(state)?;
        self.put(put_image, state, bytes)
    }

    /// Writes the sheet of the tip to the start of the bytes, and gives its length.
    pub fn write_sheet(&self, bytes: &mut [u8]) -> Result<usize, Refusal> {
        self.test_store()?;
        self.put(put_sheet, self.head.tip, bytes)
    }

    /// Writes the sheet of a state to the start of the bytes, and gives its length.
    pub fn write_state_sheet(&self, state: u32, bytes: &mut [u8]) -> Result<usize, Refusal> {
        self.test_store()?;
        self.test_state(state)?;
        self.put(put_sheet, state, bytes)
    }

    /// The image or the sheet of a state that is kept. The table need not have room for its map.
    fn put(&self, write: Write, state: u32, bytes: &mut [u8]) -> Result<usize, Refusal> {
        let table = &self.table[..self.head.used];
        let changes = self.changes_to(state);
        match &changes[..] {
            [] => write(state, table, bytes),
            changes => write(state, &applied(table, changes), bytes),
        }
    }

    /// Writes the image of the checkpoint and loads it back, with the depth that there is; it needs no test.
    pub fn restart(&mut self, bytes: &mut [u8]) -> Result<(), Refusal> {
        self.test_store()?;
        let length = put_image(self.head.checkpoint, &self.table[..self.head.used], bytes)?;
        self.fill(&Image::written(self.head.checkpoint, &bytes[..length]), self.head.depth);
        Ok(())
    }

    /// Makes the store hold the map of an image, for which the table has room, and nothing else.
    fn fill(&mut self, image: &Image, depth: u32) {
        image.read(self.table);
        self.table[image.count()..].fill(0);
        self.rest(image.state, image.count(), depth);
    }

    /// The state of the table as the only one; no step is held and no slot is open.
    fn rest(&mut self, state: u32, used: usize, depth: u32) {
        self.journal.fill(0);
        *self.head = Head::at_rest(state, used, depth);
        *self.tally = Tally::default();
    }
}

/// What writes a state's map, given as its words, and gives the length.
type Write = fn(u32, &[u64], &mut [u8]) -> Result<usize, Refusal>;

/// Writes the image of a state's map.
fn put_image(state: u32, map: &[u64], bytes: &mut [u8]) -> Result<usize, Refusal> {
    let length = image::length(map.len());
    let bytes = bytes.get_mut(..length).ok_or(Refusal::OutputShort)?;
    image::write(state, map, bytes);
    Ok(length)
}

/// Writes the sheet of a state's map.
fn put_sheet(state: u32, map: &[u64], bytes: &mut [u8]) -> Result<usize, Refusal> {
    let length = sheet::length(map);
    let bytes = bytes.get_mut(..length).ok_or(Refusal::OutputShort)?;
    sheet::write(state, map, bytes);
    Ok(length)
}
