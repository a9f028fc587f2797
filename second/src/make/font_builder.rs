//! Writes SoundFont files chunk by chunk, right or wrong.

/// A file with its name. The name is for whoever reads the maker; the form of fonts has no room for it.
pub type Named = (String, Vec<u8>);

pub fn named(name: &str, file: Vec<u8>) -> Named {
    (name.to_string(), file)
}

/// A chunk whose size field need not be its body's size, without a pad byte.
pub fn chunk_that_says(name: &[u8; 4], size: u32, body: &[u8]) -> Vec<u8> {
    [name, size.to_le_bytes().as_slice(), body].concat()
}

/// A chunk without a pad byte.
pub fn bare(name: &[u8; 4], body: &[u8]) -> Vec<u8> {
    chunk_that_says(name, body.len() as u32, body)
}

/// A chunk with a pad byte where its size is odd.
pub fn chunk(name: &[u8; 4], body: &[u8]) -> Vec<u8> {
    [bare(name, body), vec![0; body.len() % 2]].concat()
}

/// A list of a type.
pub fn list(kind: &[u8; 4], body: &[u8]) -> Vec<u8> {
    chunk(b"LIST", &[kind, body].concat())
}

/// A whole file: RIFF, sfbk and what the form holds. Where that is of odd length no pad byte follows.
pub fn form(parts: &[Vec<u8>]) -> Vec<u8> {
    bare(b"RIFF", &[b"sfbk".as_slice(), &parts.concat()].concat())
}

/// A file whose size field says so much more or less than it should.
pub fn form_that_says(more: i64, parts: &[Vec<u8>]) -> Vec<u8> {
    let mut file = form(parts);
    let size = (file.len() as i64 - 8 + more) as u32;
    file[4..8].copy_from_slice(&size.to_le_bytes());
    file
}

pub fn info() -> Vec<u8> {
    list(b"INFO", &[chunk(b"ifil", &[2, 0, 1, 0]), chunk(b"INAM", b"bells\0")].concat())
}

/// The sdta list with so many bytes of samples.
pub fn data(samples: usize) -> Vec<u8> {
    list(b"sdta", &chunk(b"smpl", &body(samples)))
}

/// The pdta list with so many bytes, which need not be a bank's.
pub fn bank(bytes: usize) -> Vec<u8> {
    list(b"pdta", &body(bytes))
}

/// Bytes that are no name.
pub fn body(length: usize) -> Vec<u8> {
    (0..length).map(|n| (n * 7 + 128) as u8 | 0x80).collect()
}

/// A small file that is right.
pub fn font() -> Vec<u8> {
    form(&[info(), data(6), bank(10)])
}
