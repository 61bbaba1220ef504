//! Images, and the set of them: a name, one line that says what is tried, and the bytes that a reader is given.

use crate::laid::Laid;

pub struct Image {
    pub name: String,
    pub tries: String,
    pub bytes: Vec<u8>,
}

#[derive(Default)]
pub struct Set(pub Vec<Image>);

impl Set {
    /// Adds an image of any bytes.
    pub fn raw(&mut self, name: impl Into<String>, tries: impl Into<String>, bytes: impl Into<Vec<u8>>) {
        let (name, tries) = (name.into(), tries.into());
        assert!(self.0.iter().all(|image| image.name != name), "{name} is there twice");
        assert!(!tries.contains('\n') && !name.contains([':', ' ', '/']), "{name} does not fit the index");
        self.0.push(Image { name, tries, bytes: bytes.into() });
    }

    /// Adds an image of a region.
    pub fn add(&mut self, name: impl Into<String>, tries: impl Into<String>, region: Region) {
        let mut bytes = format!("{},{}\n", region.unit, region.read).into_bytes();
        bytes.extend(region.bytes);
        self.raw(name, tries, bytes);
    }
}

/// A region that is being laid out, with its two units.
#[derive(Clone)]
pub struct Region {
    unit: usize,
    read: usize,
    bytes: Vec<u8>,
}

/// A region of no bytes; the read unit is 1.
pub fn region(unit: usize) -> Region {
    Region { unit, read: 1, bytes: Vec::new() }
}

impl Region {
    pub fn read(mut self, read: usize) -> Self {
        self.read = read;
        self
    }

    /// A record behind what is there.
    pub fn then(self, laid: &Laid) -> Self {
        self.bytes(laid.bytes())
    }

    pub fn bytes(mut self, bytes: &[u8]) -> Self {
        self.bytes.extend_from_slice(bytes);
        self
    }

    /// So many erased bytes behind what is there.
    pub fn erased(mut self, count: usize) -> Self {
        self.bytes.resize(self.bytes.len() + count, 0xFF);
        self
    }

    /// The region's end, erased bytes up to there.
    pub fn up_to(mut self, len: usize) -> Self {
        assert!(self.bytes.len() <= len, "the region holds more already");
        self.bytes.resize(len, 0xFF);
        self
    }

    /// The region ends here, whatever is cut off.
    pub fn cut(mut self, len: usize) -> Self {
        self.bytes.truncate(len);
        self
    }

    /// This byte stands at an offset.
    pub fn put(mut self, offset: usize, byte: u8) -> Self {
        self.bytes[offset] = byte;
        self
    }
}
