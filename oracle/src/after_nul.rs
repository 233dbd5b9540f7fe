//! Inputs in which more than NULs follow a NUL of a dataset or symbol. The crate takes NULs off the end of a text and keeps those
//! inside; here such a text is refused, by 29, 41, 42 or 43. They are not compared with the crate, but counted apart.
//!
//! They are exactly the inputs that the plain program refuses by one of the four numbers. Listed differences apart, its rules are the
//! crate's and these four; the first rule that is broken in wire order decides in both; and the four change nothing of what is read
//! after them. So:
//!
//! - Accepted, or refused by another number: every text up to there kept the four rules, and the crate, which lacks them, comes to the
//!   same answer. What stands after the first broken rule is looked at by neither: a symbol after a refusal of the header, a length, a
//!   count (31 before its list) or the layout (25 and 26 among them); any text of a fed block that is not whole; bytes after the
//!   contents, with 28 or below version 4. Letters after a NUL there make no difference, and such an input stays beside the crate. So
//!   does a text that is also no UTF-8, which is tried first.
//! - Refused by one of the four: the crate has no such number. It goes on, and accepts, or refuses by a rule that comes later, such as
//!   25 for our 29, 32 of the next symbol for our 41, or 28. No answer of it can be ours.
//!
//! 3 hides none of the four, since it comes where all else is accepted. The listed differences are about layouts, whose names hold no
//! NUL in either. A test below asks the crate about such inputs: it says what the plain program says once the letters are gone.
use crate::{
    paper::{Stage, AFTER_NUL},
    tally::Beside,
};

/// What an input that the crate can be asked about is held to, by the plain program's answers to its pieces.
pub fn beside(paper: &[Stage]) -> Beside {
    match paper.last() {
        Some(Stage::Refused((number, _))) if AFTER_NUL.contains(number) => Beside::AfterNul,
        _ => Beside::Crate,
    }
}

#[cfg(test)]
mod tests {
    use super::*;
    use crate::{
        gen::{self, Rng, Sheet},
        of_crate::{Answer, BUILDS},
        paper,
    };

    /// The crate as its ids are in the first sheet, with document 01's alignment and without `check_size`: it has then the plain
    /// program's rules but the four. The sheet is the same for all tests, which run at once.
    fn of_crate(stream: &[u8], cuts: &[usize]) -> Vec<Answer> {
        let (build, sheet) = (&BUILDS[0][2], gen::plain_sheet());
        (build.install)(&|id| (Some(sheet.0[id as usize]).filter(|&n| n > 0), sheet.uses_labels(id)));
        (build.feed)(stream, cuts)
    }

    /// A whole stream start without the letters after the NULs of the texts that the plain program came to, and its verdict then.
    fn cleaned(stream: &[u8], sheet: &Sheet) -> paper::Verdict {
        let (version, mut block) = (stream[3], stream[8..].to_vec());
        let widths = match version {
            1 => [16, 22],
            4 => [38, u16::from_le_bytes([block[67], block[68]]) as usize],
            _ => [16, u16::from_le_bytes([block[45], block[46]]) as usize],
        };
        // No text is refused a second time, and there are fewer texts than bytes.
        for _ in 0..block.len() {
            match paper::block(version, &block, &sheet.0) {
                Err((number, Some(place))) if AFTER_NUL.contains(&number) => {
                    let text = &mut block[place..][..widths[(number != 29) as usize]];
                    let nul = text.iter().position(|&byte| byte == 0).expect("a NUL");
                    text[nul..].fill(0);
                }
                verdict => return verdict,
            }
        }
        panic!("a text without letters after a NUL is refused for them")
    }

    #[test]
    fn the_crate_says_what_the_plain_program_says_once_the_letters_are_gone() {
        let (sheet, mut met, mut later) = (gen::plain_sheet(), [0; 4], 0);
        for seed in 0..12_000 {
            let mut r = Rng::new(seed);
            let version = 1 + r.below(4) as u8;
            let mut stream = gen::stream(&mut r, &sheet, version);
            if r.one_in(2) {
                stream = gen::damage(&mut r, &stream);
                gen::match_length(&mut stream);
            }
            let cuts = [r.below(stream.len() + 1)];
            let stages = paper::fed(&stream, &cuts, &sheet.0);
            let Some(Stage::Refused((number, _))) = stages.last() else { continue };
            let Some(which) = AFTER_NUL.iter().position(|one| one == number) else { continue };
            assert_eq!(beside(&stages), Beside::AfterNul);
            let answers = of_crate(&stream, &cuts);
            assert_eq!(answers.len(), stages.len(), "seed {seed}");
            for (answer, stage) in answers.iter().zip(&stages[..stages.len() - 1]) {
                assert!(matches!((answer, stage), (Answer::Needs(n), Stage::Needs(m)) if *n == *m as u64));
            }
            match (answers.last().expect("an answer"), cleaned(&stream, &sheet)) {
                (Answer::Accepted(_), Ok(())) => {}
                (Answer::Refused(crate_s, _), Err((plain, _))) if *crate_s == plain => later += 1,
                other => panic!("seed {seed}: {other:?}"),
            }
            met[which] += 1;
        }
        assert!(met.iter().all(|&count| count > 100) && later > 100, "{met:?}, {later} refused by a later rule");
    }

    /// A version 2 block of zeros with this width and these bytes in it, as docs/DIFFERENCES.md tells them.
    fn block(width: u8, length: usize, changes: &[(usize, &[u8])]) -> Vec<u8> {
        let mut block = vec![0; length];
        block[45] = width;
        for (place, part) in changes {
            block[*place..place + part.len()].copy_from_slice(part);
        }
        block
    }

    #[test]
    fn the_crate_keeps_a_nul_inside_a_text_and_what_follows_it() {
        let (one, interval): ([u8; 1], [u8; 9]) = ([1], [1, 0, 0, 0, 101, 0, 0, 0, 101]);
        let cases = [
            (block(0, 120, &[(0, b"\0a")]), 29, 0, 2),
            (block(2, 122, &[(104, &one), (108, b"\0a")]), 41, 108, 2),
            (block(2, 126, &[(116, &one), (120, b"\0a")]), 42, 120, 2),
            (block(2, 136, &[(116, &one), (122, &interval), (134, b"\0a")]), 43, 134, 2),
            (block(3, 123, &[(104, &one), (108, b"E\0S")]), 41, 108, 3),
        ];
        for (block, number, place, length) in cases {
            assert_eq!(paper::block(2, &block, &[0; 520]), Err((number, Some(place))));
            let answers = of_crate(&gen::stream_of(2, &block), &[]);
            let [Answer::Accepted(values)] = &answers[..] else { panic!("{number}: {answers:?}") };
            // The names of these values are those that the crate gave: `of_crate.rs` holds the one to the other.
            let name = values.symbology.last().map_or(values.dataset_len as u32, |row| row[2]);
            assert_eq!(name, length, "the length of the crate's name, a NUL and what follows it counted");
        }
    }
}
