// Packed texts: the bytes from the highest byte of a word down, then zero bytes.
use crate::Error;
use std::fmt;

// "query texts that can be packed as given"
pub fn pack(text: &str) -> Result<u64, Error> {
    let mut bytes = [0; 8];
    match bytes.get_mut(..text.len()) {
        Some(room) if text.bytes().all(|b| (32..=126).contains(&b)) => room.copy_from_slice(text.as_bytes()),
        _ => return Err(Error::QueryText(text.to_owned())),
    }
    Ok(u64::from_be_bytes(bytes))
}

// "An absent code or location is 0; a present empty one lies outside the domain."
pub fn pack_optional(text: Option<&str>) -> Result<u64, Error> {
    match text {
        None => Ok(0),
        Some("") => Err(Error::QueryText(String::new())),
        Some(text) => pack(text),
    }
}

// A stored text taken out of its word. It stands inline, so that reading a structure out needs no allocation for its texts.
#[derive(Clone, Copy, PartialEq, Eq)]
pub struct Text {
    bytes: [u8; 8],
    length: u8,
}

impl Text {
    pub fn read(word: u64) -> Self {
        let bytes = word.to_be_bytes();
        Text { bytes, length: bytes.iter().take_while(|b| **b != 0).count() as u8 }
    }

    // "0 means absent"
    pub fn optional(word: u64) -> Option<Self> {
        (word != 0).then(|| Text::read(word))
    }

    pub fn as_str(&self) -> &str {
        std::str::from_utf8(&self.bytes[..self.length as usize]).expect("the texts of a good store are ASCII")
    }
}

impl fmt::Debug for Text {
    fn fmt(&self, f: &mut fmt::Formatter<'_>) -> fmt::Result {
        self.as_str().fmt(f)
    }
}
