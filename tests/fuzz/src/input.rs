//! The bytes of an input, taken from the front. Past the end there are zeros,
//! so that every input decodes.

pub struct Input<'a> {
    rest: &'a [u8],
}

impl<'a> Input<'a> {
    pub fn new(bytes: &'a [u8]) -> Input<'a> {
        Input { rest: bytes }
    }

    pub fn is_used_up(&self) -> bool {
        self.rest.is_empty()
    }

    pub fn byte(&mut self) -> u8 {
        match self.rest {
            [first, rest @ ..] => {
                self.rest = rest;
                *first
            }
            [] => 0,
        }
    }

    /// A byte as an index or a length.
    pub fn index(&mut self) -> usize {
        usize::from(self.byte())
    }

    /// Two bytes, the low one first.
    pub fn short(&mut self) -> usize {
        self.index() + 256 * self.index()
    }

    /// Eight bytes, the low one first.
    pub fn long(&mut self) -> u64 {
        u64::from_le_bytes([(); 8].map(|()| self.byte()))
    }

    /// So many bytes, or as many as there are.
    pub fn bytes(&mut self, count: usize) -> &'a [u8] {
        let (taken, rest) = self.rest.split_at(count.min(self.rest.len()));
        self.rest = rest;
        taken
    }

    pub fn rest(&mut self) -> &'a [u8] {
        self.bytes(self.rest.len())
    }
}
