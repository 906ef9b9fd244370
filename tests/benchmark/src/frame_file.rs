//! The frame file of a full side: its records tested and taken apart.

use crate::contest::Contestant;
use crate::frames;
use oracle::frames::{check, fetch, record, Checked, RECORD};

/// A file of n frames; of ten records two are the fields of a still.
pub fn file(n: usize) -> Vec<u8> {
    let mut file = Vec::new();
    let (mut picture, mut field) = (1_u32, 0_u8);
    for (i, features) in frames(n).chunks(6).enumerate() {
        field = match (i % 10, field) {
            (_, 1) => 2,
            (9, _) => 1,
            _ => 0,
        };
        let mut values = [i as f64; 8];
        values[..6].copy_from_slice(features);
        file.extend(record(picture, 1, field, &values));
        picture += u32::from(field != 1);
    }
    file
}

/// What is read: the pictures, fields and features of all frames.
pub struct Taken {
    file: Vec<u8>,
    ours: bool,
    values: Vec<f64>,
}

impl Taken {
    /// By the library, or by the independent implementation of the rules.
    pub fn new(file: &[u8], ours: bool) -> Taken {
        Taken {
            file: file.to_vec(),
            ours,
            values: Vec::with_capacity(file.len()),
        }
    }

    fn by_the_library(&mut self) {
        let count = brothanchor::frames(&self.file).expect("a good file");
        for i in 0..count {
            let frame = brothanchor::frame(&self.file, i);
            self.values.extend([f64::from(frame.picture), f64::from(frame.field)]);
            self.values.extend(frame.features);
        }
    }

    fn by_the_rules(&mut self) {
        assert_eq!(check(&self.file), Checked::Good(self.file.len() / RECORD));
        for frame in (0..self.file.len() / RECORD).filter_map(|i| fetch(&self.file, i)) {
            self.values.extend([f64::from(frame.picture), f64::from(frame.field)]);
            self.values.extend(frame.features);
        }
    }
}

impl Contestant for Taken {
    fn name(&self) -> &'static str {
        if self.ours {
            "the library"
        } else {
            "the rules in plain Rust"
        }
    }

    fn reset(&mut self) {
        self.values.clear();
    }

    fn work(&mut self) {
        if self.ours {
            self.by_the_library();
        } else {
            self.by_the_rules();
        }
    }

    fn result(&self) -> Option<Vec<f64>> {
        Some(self.values.clone())
    }
}
