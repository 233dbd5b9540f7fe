//! House files: dbn_house_store and dbn_house_load beside the plain program, on starts that are whole, damaged, cut or followed by more, and on files
//! that are sound or bent.
use crate::{
    calls,
    compare::hex,
    gen::{self, Rng, Sheet},
    ours::{marks, table},
    paper::Stage,
    paper_house::{self, BLOCK},
    tally::Tally,
};

/// Where `out` has the place of a refusal.
const PLACE: usize = 13;

/// A start that is stored, and two files that are loaded.
pub fn made(r: &mut Rng, sheet: &Sheet, tally: &mut Tally) {
    let version = 1 + r.below(4) as u8;
    let mut bytes = gen::stream(r, sheet, version);
    match r.below(8) {
        0 | 1 => bytes = gen::damage(r, &bytes),
        2 => bytes.truncate(r.below(bytes.len()) + 1),
        3 => bytes.extend((0..1 + r.below(20)).map(|i| i as u8)),
        _ => {}
    }
    let agreed = stored(r, sheet, &bytes).map_err(|text| format!("{text}; start {}", hex(&bytes)));
    tally.add_stored(agreed);
    // There is no file of no bytes.
    let Ok(mut file) = paper_house::pack(&bytes) else { return };
    for bends in [0, 1 + r.below(2)] {
        (0..bends).for_each(|_| bend(r, &mut file));
        let agreed = loaded(r, sheet, &file).map_err(|text| format!("{text}; file {}", hex(&file)));
        tally.add_loaded(agreed);
    }
}

/// One start through both: the number, or what differs.
fn stored(r: &mut Rng, sheet: &Sheet, bytes: &[u8]) -> Result<u32, String> {
    let most = (bytes.len() / 504 + 1) * BLOCK;
    let length = r.pick(&[most, most, most, most + 9, most - BLOCK, 0]);
    let output: Vec<u8> = (0..length).map(|_| r.byte()).collect();
    let out = marks(r);
    let a = calls::house_store(bytes, &sheet.0, &output, &out);
    let wanted = paper_house::store(bytes, &sheet.0, length);
    let (mut told, mut file, mut number) = (out, output.clone(), 0);
    match &wanted {
        Ok(packed) => {
            told[0] = packed.len() as u64;
            file[..packed.len()].copy_from_slice(packed);
        }
        Err((refused, place)) => {
            number = *refused;
            place.iter().for_each(|&place| told[PLACE] = place as u64);
        }
    }
    match (a.number, a.out, a.output) == (number, told, file) {
        true => Ok(number),
        false => Err(format!("paper {number}, here {}, or another out or output", a.number)),
    }
}

/// One file through both, without tables: the number, 0 also where rows find no room, or what differs.
fn loaded(r: &mut Rng, sheet: &Sheet, file: &[u8]) -> Result<u32, String> {
    let held = file.len() / BLOCK * 504;
    let room = r.pick(&[held, held + 9, held + 600, held + 600, held.saturating_sub(300), 8]);
    let store: Vec<u8> = (0..room).map(|_| r.byte()).collect();
    let (out, symbology, layout) = (marks(r), table(r, 5), table(r, 8));
    let a = calls::house_load(file, &store, &sheet.0, &symbology, &layout, &out);
    let mut kept = store.clone();
    let (mut told, mut number) = (out, 0);
    match paper_house::load(file, &mut kept, &sheet.0) {
        Err(refused) => number = refused,
        Ok((length, stage)) => {
            told[16..19].copy_from_slice(&[0, length as u64, 0]);
            match stage {
                Stage::Done => {}
                Stage::Needs(needed) => (number, told[18]) = (134, needed as u64),
                Stage::Refused((refused, place)) => {
                    number = refused;
                    place.iter().for_each(|&place| told[PLACE] = place as u64);
                }
            }
        }
    }
    // Of an accepted start the numbers of the block, or of the rows that are needed, are compared elsewhere.
    let accepted = number == 0 && matches!(a.number, 0 | 3);
    let (from, got) = if accepted { (16, 0) } else { (0, a.number) };
    let tables = (&a.symbology, &a.layout) == (&symbology, &layout);
    match (got, &a.out[from..], &a.store) == (number, &told[from..], &kept) && tables {
        true => Ok(number),
        false => Err(format!("paper {number}, here {}, or another out, store or table", a.number)),
    }
}

/// One change to a file. Mostly its blocks have the right check words then.
fn bend(r: &mut Rng, file: &mut Vec<u8>) {
    let blocks = file.len() / BLOCK;
    if blocks == 0 {
        return;
    }
    let at = BLOCK * if r.one_in(2) { blocks - 1 } else { r.below(blocks) };
    match r.below(7) {
        0 => {
            let place = r.below(file.len());
            file[place] ^= 1 << r.below(8);
            return;
        }
        1 => return file.truncate(r.pick(&[0, at, at + 1, file.len() - 1])),
        2 => file[at] = file[at].wrapping_add(1 + r.below(3) as u8),
        3 => file[at + 2..at + 4].copy_from_slice(&r.pick(&[0u16, 1, 8, 503, 504, 505, 760, 65_535]).to_le_bytes()),
        4 => file[at + 507 - r.below(40)] = r.byte(),
        5 => file.extend_from_within(at..at + BLOCK),
        _ => file[at + 4 + r.below(504)] = r.byte(),
    }
    sealed(&mut file[at..at + BLOCK]);
}

/// The check words that the plain program gives, for any index and used count: those of the same words one after the other.
fn sealed(block: &mut [u8]) {
    let [a, b] = block[..508].chunks(2).fold([0u32; 2], |[a, b], word| {
        let a = (a + word[0] as u32 + 256 * word[1] as u32) % 65_535;
        [a, (a + b) % 65_535]
    });
    block[508..510].copy_from_slice(&(a as u16).to_le_bytes());
    block[510..].copy_from_slice(&(b as u16).to_le_bytes());
}
