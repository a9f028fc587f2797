//! A place in a bank in the words of the SoundFont specification, for a person who looks for a fault. Nothing is decided
//! here: a bank whose chunks are damaged has no such words. Records are counted from 0, as the file itself counts them.

/// The chunks of a bank in order, and the bytes of a record of each.
const CHUNKS: [(&[u8; 4], usize); 9] = [
    (b"phdr", 38),
    (b"pbag", 4),
    (b"pmod", 10),
    (b"pgen", 4),
    (b"inst", 22),
    (b"ibag", 4),
    (b"imod", 10),
    (b"igen", 4),
    (b"shdr", 46),
];

/// Where the records of a chunk lie.
#[derive(Clone, Copy)]
struct Chunk {
    from: usize,
    size: usize,
    record: usize,
}

impl Chunk {
    /// A number of 16 bits in record `n`, so many bytes behind its front.
    fn number(&self, bank: &[u8], n: usize, behind: usize) -> Option<usize> {
        let at = n * self.record + behind;
        let two = bank.get(self.from + at..self.from + at + 2)?;
        (at + 2 <= self.size).then_some(u16::from_le_bytes([two[0], two[1]]) as usize)
    }
}

/// Which record a byte of a bank is in.
pub fn at(bank: &[u8], place: usize) -> Option<String> {
    let chunks = chunks(bank);
    let number = chunks.iter().position(|chunk| (chunk.from - 8..chunk.from + chunk.size).contains(&place))?;
    let (chunk, name) = (chunks[number], String::from_utf8_lossy(CHUNKS[number].0).into_owned());
    let Some(behind) = place.checked_sub(chunk.from) else { return Some(format!("the front of chunk {name}")) };
    let record = behind / chunk.record;
    let words = match number {
        0 => Some(format!("preset {record}")),
        1 => zone(bank, &chunks, 0, record),
        3 => zone_of_generator(bank, &chunks, 0, record),
        4 => Some(format!("instrument {record}")),
        5 => zone(bank, &chunks, 4, record),
        7 => zone_of_generator(bank, &chunks, 4, record),
        8 => Some(format!("sample {record}")),
        _ => None,
    };
    Some(words.unwrap_or_else(|| format!("record {record} of chunk {name}")))
}

/// The chunks from the front on, as far as they have the right names and lie in the bank.
fn chunks(bank: &[u8]) -> Vec<Chunk> {
    let (mut found, mut place) = (Vec::new(), 0);
    for (name, record) in CHUNKS {
        let Some(head) = bank.get(place..place + 8) else { break };
        let size = u32::from_le_bytes([head[4], head[5], head[6], head[7]]) as usize;
        if &head[..4] != name || bank.len() - place - 8 < size {
            break;
        }
        found.push(Chunk { from: place + 8, size, record });
        place += 8 + size + size % 2;
    }
    found
}

/// Zone `number` of all: which zone of which preset (side 0) or instrument (side 4) it is.
fn zone(bank: &[u8], chunks: &[Chunk], side: usize, number: usize) -> Option<String> {
    let heads = chunks.get(side)?;
    let first = |head| heads.number(bank, head, heads.record - if side == 0 { 14 } else { 2 });
    let owner = last_up_to(number, heads.size / heads.record, first)?;
    let what = if side == 0 { "preset" } else { "instrument" };
    Some(format!("zone {} of {what} {owner}", number - first(owner)?))
}

fn zone_of_generator(bank: &[u8], chunks: &[Chunk], side: usize, generator: usize) -> Option<String> {
    let bags = chunks.get(side + 1)?;
    let number = last_up_to(generator, bags.size / bags.record, |bag| bags.number(bank, bag, 0))?;
    zone(bank, chunks, side, number)
}

/// The last of some records whose number is not above another, as long as the numbers do not fall.
fn last_up_to(most: usize, count: usize, number: impl Fn(usize) -> Option<usize>) -> Option<usize> {
    let (mut last, mut before) = (None, 0);
    for record in 0..count {
        let here = number(record)?;
        if here < before || here > most {
            break;
        }
        (last, before) = (Some(record), here);
    }
    last
}

/// The name of a preset: at most 20 letters, up to the first zero. What is no letter is shown as a point.
pub fn name_at(bank: &[u8], place: usize) -> String {
    let twenty = bank.get(place..place + 20).unwrap_or_default();
    let letters = twenty.split(|byte| *byte == 0).next().unwrap_or_default();
    letters.iter().map(|byte| char::from(*byte)).map(|letter| if letter.is_control() { '.' } else { letter }).collect()
}

#[cfg(test)]
mod tests {
    use super::*;
    use crate::bells::bank::Carillon;

    /// The places of the built-in bank's chunks.
    fn found(bank: &[u8]) -> Vec<Chunk> {
        chunks(bank)
    }

    #[test]
    fn records_of_the_bells() {
        let bank = Carillon::cast().pdta();
        let chunks = found(&bank);
        assert_eq!(chunks.len(), 9);
        let words =
            |chunk: usize, record: usize| at(&bank, chunks[chunk].from + record * chunks[chunk].record).unwrap();
        assert_eq!(words(0, 1), "preset 1");
        assert_eq!(words(1, 0), "zone 0 of preset 0");
        assert_eq!(words(1, 75), "zone 1 of preset 1");
        assert_eq!(words(3, 5), "zone 1 of preset 0");
        assert_eq!(words(4, 1), "instrument 1");
        assert_eq!(words(5, 3), "zone 3 of instrument 0");
        assert_eq!(words(5, 4), "zone 0 of instrument 1");
        assert_eq!(words(7, 4), "zone 1 of instrument 0");
        assert_eq!(words(8, 2), "sample 2");
        assert_eq!(words(2, 0), "record 0 of chunk pmod");
        assert_eq!(at(&bank, 0).unwrap(), "the front of chunk phdr");
        assert_eq!(at(&bank, bank.len()), None);
        assert_eq!(name_at(&bank, chunks[0].from), "Carillon");
    }

    #[test]
    fn damaged_banks_have_fewer_words() {
        let bank = Carillon::cast().pdta();
        for length in 0..bank.len() {
            at(&bank[..length], length / 2);
        }
        for place in 0..bank.len() {
            let mut wrong = bank.clone();
            wrong[place] ^= 0xFF;
            at(&wrong, place);
            at(&wrong, bank.len() - 1);
        }
        assert_eq!(at(&[], 0), None);
    }

    #[test]
    fn names_of_any_bytes() {
        assert_eq!(name_at(b"Gl\xf6ckchen\n\x1b[2J\x7f\0rest", 0), "Gl\u{f6}ckchen..[2J.");
        assert_eq!(name_at(&[65; 10], 0), "");
    }
}
