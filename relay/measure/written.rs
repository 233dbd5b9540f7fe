//! A block that is read once and then written again and again, its own bytes as the text.
use dbn_start::{ffi, Sheet};

/// What is lent to the block writer.
pub struct Written {
    version: u8,
    sheet: Sheet,
    fields: [u64; 16],
    symbology: Vec<u32>,
    layout: Vec<u32>,
    text: Vec<u8>,
    output: Vec<u8>,
}

impl Written {
    /// What is lent to write an accepted block, with tables and an output that are just long enough for one without leftovers.
    pub fn of(version: u8, block: &[u8], sheet: Sheet) -> Self {
        let (text, output) = (block.to_vec(), vec![0; 8 + block.len()]);
        let mut written = Self { version, sheet, fields: [0; 16], symbology: vec![], layout: vec![], text, output };
        if written.read() == 3 {
            let [rows, items] = written.rows();
            (written.symbology, written.layout) =
                (vec![0; rows * ffi::SYMBOLOGY_ROW], vec![0; items * ffi::LAYOUT_ROW]);
            assert_eq!(written.read(), 0, "an accepted block");
        }
        // The layout begins at byte 104 of the text. The dataset's start is 0, as the numbers of an accepted block have it.
        written.layout.chunks_mut(ffi::LAYOUT_ROW).filter(|row| row[0] != 11).for_each(|row| row[1] += 104);
        written
    }

    fn read(&mut self) -> u32 {
        let (first, second) = (&mut self.symbology, &mut self.layout);
        // SAFETY: every pointer is to a buffer of the given length, and no two overlap.
        unsafe {
            ffi::dbn_block(
                self.version,
                self.text.as_ptr(),
                self.text.len(),
                self.sheet.numbers(),
                first.as_mut_ptr(),
                first.len(),
                second.as_mut_ptr(),
                second.len(),
                &mut self.fields,
            )
        }
    }

    /// The rows of symbology and of layout.
    pub fn rows(&self) -> [usize; 2] {
        [self.fields[10], self.fields[11]].map(|rows| rows as usize)
    }

    /// Writes the start, and gives its number and its bytes.
    pub fn write(&mut self) -> (u32, &[u8]) {
        let mut out = [0; 16];
        // SAFETY: every pointer is to a buffer of the given length, and what is lent for writing overlaps no other.
        let number = unsafe {
            ffi::dbn_write_block(
                self.version,
                &self.fields,
                self.symbology.as_ptr(),
                self.symbology.len(),
                self.fields[10],
                self.layout.as_ptr(),
                self.layout.len(),
                self.text.as_ptr(),
                self.text.len(),
                self.sheet.numbers(),
                self.output.as_mut_ptr(),
                self.output.len(),
                &mut out,
            )
        };
        (number, &self.output[..out[0] as usize])
    }
}
