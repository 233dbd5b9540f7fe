//! Request 13 of document 02 as a plain program: what a house file is, what refuses it, and what is stored, with no care for speed.
use crate::paper::{self, Refused, Sheet, Stage};

/// Bytes of a block and of its payload, and the most blocks.
pub const BLOCK: usize = 512;
const PAYLOAD: usize = 504;
const MOST: usize = 65_536;

fn number(bytes: &[u8]) -> u64 {
    bytes[0] as u64 + 256 * bytes[1] as u64
}

/// a and b of the 254 words before them: their sum, and the sum of the running sums of a, both modulo 65535.
fn check_words(words: &[u64]) -> (u64, u64) {
    let running: Vec<u64> = (1..=words.len()).map(|count| words[..count].iter().sum()).collect();
    (running.last().expect("some words") % 65535, running.iter().sum::<u64>() % 65535)
}

/// The file of some bytes: 130 where there is none.
pub fn pack(bytes: &[u8]) -> Result<Vec<u8>, u32> {
    let count = bytes.len() / PAYLOAD + (!bytes.len().is_multiple_of(PAYLOAD)) as usize;
    if count == 0 || count > MOST {
        return Err(130);
    }
    let mut file = Vec::new();
    for index in 0..count {
        let used = &bytes[PAYLOAD * index..bytes.len().min(PAYLOAD * (index + 1))];
        let mut words = vec![index as u64, used.len() as u64];
        let padded = [used, &vec![0; PAYLOAD - used.len()]].concat();
        words.extend(padded.chunks(2).map(number));
        let (a, b) = check_words(&words);
        words.extend([a, b]);
        file.extend(words.iter().flat_map(|&word| [(word % 256) as u8, (word / 256) as u8]));
    }
    Ok(file)
}

/// What refuses a block: 131 its check words, 132 its index, 133 its used count or its filler.
fn block_fault(block: &[u8], index: usize, last: bool) -> Option<u32> {
    let words: Vec<u64> = block.chunks(2).map(number).collect();
    let used = words[1] as usize;
    let faults = [
        (check_words(&words[..254]) != (words[254], words[255]), 131),
        (words[0] != index as u64, 132),
        (!last && used != PAYLOAD, 133),
        (used < 1 || used > PAYLOAD, 133),
        ((used..PAYLOAD).any(|place| block[4 + place] != 0), 133),
    ];
    faults.into_iter().find(|(broken, _)| *broken).map(|(_, number)| number)
}

/// The bytes that a file holds: 130 for its length, then the first block that is not sound.
pub fn unpack(file: &[u8]) -> Result<Vec<u8>, u32> {
    let count = file.len() / BLOCK;
    if file.len() != BLOCK * count || count == 0 || count > MOST {
        return Err(130);
    }
    let block = |index: usize| &file[BLOCK * index..BLOCK * (index + 1)];
    if let Some(fault) = (0..count).find_map(|index| block_fault(block(index), index, index + 1 == count)) {
        return Err(fault);
    }
    Ok((0..count).flat_map(|index| &block(index)[4..][..number(&block(index)[2..]) as usize]).copied().collect())
}

/// Storing a start with an output of so many bytes: the reader's refusal of it, 134 where it is not whole, then 130, then 112; or the file.
pub fn store(start: &[u8], s: &Sheet, room: usize) -> Result<Vec<u8>, Refused> {
    let announced = start.get(4..8).map_or(0, |x| u32::from_le_bytes(x.try_into().unwrap()) as usize);
    let mut store = start.to_vec();
    store.resize(start.len().max(8 + announced.min(1 << 20)), 0);
    match paper::stage(start.len(), &store, s) {
        // A start that announces more than that store has is not whole.
        Stage::Needs(_) | Stage::Refused((2, None)) => Err((134, None)),
        Stage::Refused(refused) => Err(refused),
        Stage::Done => {
            let file = pack(start).map_err(|number| (number, None))?;
            Some(file).filter(|file| file.len() <= room).ok_or((112, None))
        }
    }
}

/// Loading a file into a store: what refuses it, and then nothing is touched; or the count of the bytes that stand in the store, and what the reader
/// says of them.
pub fn load(file: &[u8], store: &mut [u8], s: &Sheet) -> Result<(usize, Stage), u32> {
    let bytes = unpack(file)?;
    store.get_mut(..bytes.len()).ok_or(1u32)?.copy_from_slice(&bytes);
    Ok((bytes.len(), paper::stage(bytes.len(), store, s)))
}

#[cfg(test)]
mod tests {
    use super::*;

    /// A block with nothing in it but an index, a used count and one byte at a place.
    fn block(index: u8, used: u16, place: usize, byte: u8) -> Vec<u8> {
        let mut block = vec![0; BLOCK];
        block[0] = index;
        block[2..4].copy_from_slice(&used.to_le_bytes());
        block[4 + place] = byte;
        let words: Vec<u64> = block[..508].chunks(2).map(number).collect();
        let (a, b) = check_words(&words);
        block[508..510].copy_from_slice(&(a as u16).to_le_bytes());
        block[510..].copy_from_slice(&(b as u16).to_le_bytes());
        block
    }

    #[test]
    fn check_words_are_as_the_paper_has_them() {
        assert_eq!(check_words(&[1, 2, 3]), (6, 10));
        assert_eq!(check_words(&[65_535, 65_535]), (0, 0));
        assert_eq!(check_words(&[65_534, 3]), (2, 1));
    }

    #[test]
    fn each_number_and_their_order() {
        let full = |index| block(index, 504, 0, 7);
        let of = |blocks: &[Vec<u8>]| unpack(&blocks.concat()).map(|bytes| bytes.len());
        assert_eq!([of(&[full(0)]), of(&[full(0), block(1, 1, 0, 9)]), of(&[])], [Ok(504), Ok(505), Err(130)]);
        assert_eq!(
            [0, 1, 503, 504, 505].map(|used| of(&[block(0, used, 0, 0)]).is_ok()),
            [false, true, true, true, false]
        );
        assert_eq!(
            [of(&[full(1)]), of(&[block(0, 4, 4, 1)]), of(&[block(0, 503, 0, 1), full(1)])],
            [Err(132), Err(133), Err(133)]
        );
        let mut wrong = block(5, 0, 3, 1);
        assert_eq!(of(&[wrong.clone()]), Err(132));
        wrong[511] ^= 1;
        assert_eq!([of(&[wrong.clone()]), of(&[full(1), wrong])], [Err(131), Err(132)]);
        assert_eq!(pack(&[5; 505]).map(|file| (file.len(), unpack(&file))), Ok((1_024, Ok(vec![5; 505]))));
        assert_eq!((pack(&[]), unpack(&[0; 513])), (Err(130), Err(130)));
    }
}
