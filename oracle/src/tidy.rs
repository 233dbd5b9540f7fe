//! Layouts that may be tidy: dbn_tidy beside the plain program, number and place; and beside the crate, which writes a layout that it read as
//! the same bytes exactly where it is tidy here, and whose own bytes are tidy.
use crate::{
    compare::{hex, Made},
    gen::{self, Rng, Sheet},
    of_crate::BUILDS,
    ours, paper,
    tally::Tally,
    untidy, walk,
};

/// A layout that is tidy but for a few things, or that is bent and filled.
pub fn made(r: &mut Rng, made: &Made, tally: &mut Tally) {
    let (bytes, width) = if r.one_in(4) {
        gen::some_layout(r, &made.sheet, &[0, 1])
    } else {
        untidy::layout(r, &made.sheet, &[0, 0, 1, 1, 2, 3])
    };
    asked(&made.sheet, Some(made.build), tally, &bytes, width);
}

/// A layout, held to the plain program and, where it is accepted, to the crate with the ids of this sheet, if there is one.
pub fn asked(sheet: &Sheet, build: Option<usize>, tally: &mut Tally, bytes: &[u8], width: u16) {
    let wanted = paper::tidy(bytes, width as usize, &sheet.0);
    let agreed = match ours::tidy(bytes, width, sheet) {
        Ok(got) if got == wanted => beside_writers(sheet, build, bytes, width, wanted),
        got => Err(format!("paper {wanted:?}, here {got:?}")),
    };
    tally.add_tidy(agreed.map_err(|text| format!("{text}; layout {} width {width}", hex(bytes))));
}

/// What the plain program and the crate write for an accepted layout: the same bytes exactly if it is tidy. What the crate writes is tidy. Gives
/// the number, and whether the crate was asked.
fn beside_writers(
    sheet: &Sheet,
    build: Option<usize>,
    bytes: &[u8],
    width: u16,
    verdict: paper::Verdict,
) -> Result<(u32, bool), String> {
    let number = verdict.map_or_else(|(number, _)| number, |()| 0);
    if !matches!(number, 0 | 120..) {
        return Ok((number, false));
    }
    let (version, rows) = walk::layout(bytes);
    let written = paper::write(&rows.concat(), bytes, version, width as usize, &sheet.0);
    if written.is_ok_and(|written| written == bytes) != (number == 0) {
        return Err(format!("the plain program answers {number} and writes something else"));
    }
    let Some(build) = build else { return Ok((number, false)) };
    // The build with document 01's alignment reads whatever is read here.
    let theirs =
        (BUILDS[build][2].rewrite)(bytes, width).map_err(|text| format!("the crate does not write: {text}"))?;
    if (theirs == bytes) != (number == 0) || ours::tidy(&theirs, width, sheet)? != Ok(()) {
        return Err(format!("the answer is {number}, and the crate writes {}", hex(&theirs)));
    }
    Ok((number, true))
}
