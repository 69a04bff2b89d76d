//! An implementation and the image it works on, with short forms of the calls
//! for tests that state what each answers.

use crate::calls::{Answer, Base, Calls};

/// A good date.
pub const DATE: [u8; 8] = [0x20, 0x26, 0x11, 0x15, 0x07, 0x20, 0x30, 0x59];

/// A desk of either version.
pub struct DeskOf<'a, C: Base + ?Sized> {
    pub calls: &'a C,
    pub image: Vec<u8>,
}

/// A desk of version 1.
pub type Desk<'a> = DeskOf<'a, dyn Calls + 'a>;

impl<'a> Desk<'a> {
    /// A freshly formatted image over old bytes.
    pub fn fresh(calls: &'a dyn Calls, length: usize) -> Desk<'a> {
        let mut image = vec![0xE5; length];
        assert_eq!(calls.format(&mut image), Answer::granted());
        Desk { calls, image }
    }

    /// The free number of a sound image.
    pub fn free(&self) -> u64 {
        let verdict = self.calls.verdict(&self.image);
        let pages = self.image.len() as u64 / 256;
        let free = verdict.values[1];
        assert_eq!(verdict, Answer::verdict(pages, free));
        free
    }
}

impl<C: Base + ?Sized> DeskOf<'_, C> {
    /// Makes a file; answers the number, 0 when granted.
    pub fn make_file(&mut self, path: &str) -> u8 {
        let path = path.as_bytes();
        self.calls.make_file(&mut self.image, path, &DATE).number
    }

    pub fn make_directory(&mut self, path: &str) -> u8 {
        let path = path.as_bytes();
        let answer = self.calls.make_directory(&mut self.image, path, &DATE);
        answer.number
    }

    /// Makes what a test begins with; panics unless it is granted.
    pub fn make_all(&mut self, directories: &[&str], files: &[&str]) {
        for path in directories {
            assert_eq!(self.make_directory(path), 0, "{path}");
        }
        for path in files {
            assert_eq!(self.make_file(path), 0, "{path}");
        }
    }

    /// Writes `length` bytes of a pattern.
    pub fn write(&mut self, path: &str, position: u64, length: usize) -> u8 {
        let bytes = pattern(length);
        let path = path.as_bytes();
        let answer = self.calls.write(&mut self.image, path, position, &bytes);
        answer.number
    }

    pub fn remove_file(&mut self, path: &str) -> u8 {
        let path = path.as_bytes();
        self.calls.remove_file(&mut self.image, path).number
    }

    pub fn remove_directory(&mut self, path: &str) -> u8 {
        let path = path.as_bytes();
        self.calls.remove_directory(&mut self.image, path).number
    }

    pub fn lock(&mut self, path: &str) -> u8 {
        self.calls.lock(&mut self.image, path.as_bytes()).number
    }

    pub fn unlock(&mut self, path: &str) -> u8 {
        self.calls.unlock(&mut self.image, path.as_bytes()).number
    }

    pub fn find(&self, path: &str) -> Answer {
        self.calls.find(&self.image, path.as_bytes())
    }

    pub fn list(&self, path: &str, entry: u64) -> Answer {
        self.calls.list(&self.image, path.as_bytes(), entry)
    }

    pub fn verdict(&self) -> Answer {
        self.calls.verdict(&self.image)
    }

    /// The whole content of a file.
    pub fn content(&self, path: &str) -> Vec<u8> {
        let size = self.find(path).values[1] as usize;
        let mut buffer = vec![0; size];
        let path = path.as_bytes();
        let answer = self.calls.read(&self.image, path, 0, &mut buffer);
        assert_eq!(answer, Answer::count(size as u64));
        buffer
    }
}

/// Bytes that tell their place.
pub fn pattern(length: usize) -> Vec<u8> {
    (0..length)
        .map(|place| (place * 7 + place / 251) as u8)
        .collect()
}
