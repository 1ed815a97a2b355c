//! Walks through the corpus from front to back.

pub struct Reader<'a> {
    left: &'a [u8],
}

impl<'a> Reader<'a> {
    pub fn new(bytes: &'a [u8]) -> Reader<'a> {
        Reader { left: bytes }
    }

    pub fn is_at_end(&self) -> bool {
        self.left.is_empty()
    }

    pub fn bytes(&mut self, length: usize) -> Result<&'a [u8], String> {
        let missing = || format!("{length} bytes expected, {} left", self.left.len());
        let (taken, left) = self.left.split_at_checked(length).ok_or_else(missing)?;
        self.left = left;
        Ok(taken)
    }

    pub fn number(&mut self) -> Result<u32, String> {
        let bytes = self.bytes(4)?.try_into().expect("four bytes were taken");
        Ok(u32::from_le_bytes(bytes))
    }

    pub fn long_number(&mut self) -> Result<u64, String> {
        let bytes = self.bytes(8)?.try_into().expect("eight bytes were taken");
        Ok(u64::from_le_bytes(bytes))
    }

    /// A length that is promised to be at most so much.
    pub fn length(&mut self, most: usize) -> Result<usize, String> {
        match self.number()? as usize {
            length if length <= most => Ok(length),
            length => Err(format!("length {length} is above {most}")),
        }
    }

    /// Bytes after their length.
    pub fn list(&mut self) -> Result<&'a [u8], String> {
        let length = self.number()? as usize;
        self.bytes(length)
    }

    /// Numbers after their length.
    pub fn numbers(&mut self, most: usize) -> Result<Vec<u32>, String> {
        let length = self.length(most)?;
        (0..length).map(|_| self.number()).collect()
    }
}
