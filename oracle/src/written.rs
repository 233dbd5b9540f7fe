//! Starts through the block writer: what was read is written, and the crate reads it as the same metadata; what the crate's encoder writes is
//! read and written again; and anything beside the plain program.
use crate::{
    compare::{cut_stream, hex, rising, with_input, writer_beside_paper, Made},
    gen::{self, Rng, Sheet},
    of_crate::{layout_of, Answer, BUILDS},
    ours, paper_start,
    starts::{self, Read},
    tally::{Beside, Kind, Tally},
    walk::Values,
};

/// A stream start that is read here, and what is read.
fn accepted(r: &mut Rng, sheet: &Sheet, stream: &[u8]) -> Option<Values> {
    match ours::feed(r, stream, &[], sheet).pop() {
        Some(Answer::Accepted(values)) => Some(*values),
        _ => None,
    }
}

/// What is lent to write a start that was read, its texts moved.
fn moved(r: &mut Rng, stream: &[u8], values: &Values) -> crate::calls::Start {
    let (out, layout) = (values.out(), values.layout.concat());
    let rows = &values.symbology;
    Read { version: stream[3], block: &stream[8..], out: &out, rows, layout: &layout }.moved(r)
}

/// Whether the layout of a start is tidy, where it has one.
fn has_tidy_layout(sheet: &Sheet, stream: &[u8], width: usize) -> bool {
    stream[3] < 4 || ours::tidy(layout_of(&stream[8..]), width as u16, sheet) == Ok(Ok(()))
}

/// What is written for a start, which the plain program must write too, with a tidy layout; one byte less of output is refused by 112.
fn write(r: &mut Rng, sheet: &Sheet, start: &crate::calls::Start) -> Result<Result<Vec<u8>, u32>, String> {
    let wanted = paper_start::write(start, &sheet.0);
    let room = wanted.as_ref().map_or(200, Vec::len);
    let more = r.below(5);
    let got = ours::write_start(r, start, sheet, room + more)?;
    if got != wanted {
        return Err(format!("paper {wanted:?}, here {got:?}"));
    }
    if got.is_ok() && ours::write_start(r, start, sheet, room - 1)? != Err(112) {
        return Err("an output one byte short".into());
    }
    if got.as_ref().is_ok_and(|stream| !has_tidy_layout(sheet, stream, start.fields[8] as usize)) {
        return Err("a layout that is not tidy".into());
    }
    Ok(got)
}

/// A start that is read here, written, and read by the crate as the metadata that it reads in the first.
pub fn read_again(r: &mut Rng, made: &Made, tally: &mut Tally) {
    let version = 1 + r.below(4) as u8;
    let stream = gen::stream(r, &made.sheet, version);
    let Some(values) = accepted(r, &made.sheet, &stream) else {
        return cut_stream(r, made, tally, &stream, "streams");
    };
    let start = moved(r, &stream, &values);
    // The build with document 01's alignment reads whatever is read here.
    let build = &BUILDS[made.build][2];
    let kind = match write(r, &made.sheet, &start) {
        Ok(Err(95)) if !rising(&values.layout) => Kind::Listed("label order: the block writer gives 95".into()),
        Ok(Ok(written)) if (build.same_start)(&written, &stream) => same_values(r, made, &written, &values),
        other => Kind::Unexplained(format!("written {other:?}, or the crate reads something else")),
    };
    let kind = with_input(kind, || format!("stream {}", hex(&stream)));
    tally.add(Beside::Crate, "starts written", &Answer::Accepted(Box::default()), kind);
}

/// What was written has the values that were read before, starts apart, here and in the crate.
fn same_values(r: &mut Rng, made: &Made, written: &[u8], values: &Values) -> Kind {
    let without = |values: &Values| {
        let mut values = values.clone();
        values.symbology.iter_mut().for_each(|row| row[1] = 0);
        values.layout.iter_mut().filter(|row| row[0] != 11).for_each(|row| row[1] = 0);
        values
    };
    let theirs = (BUILDS[made.build][2].feed)(written, &[]).pop();
    match (accepted(r, &made.sheet, written), theirs) {
        (Some(here), Some(Answer::Accepted(theirs))) if here == *theirs && without(&here) == without(values) => {
            Kind::Agreed
        }
        (here, theirs) => {
            Kind::Unexplained(format!("read here {here:?}, by the crate {theirs:?}, and before {values:?}"))
        }
    }
}

/// A start of the crate's own encoder, whose layout is tidy, read here and written again: the same bytes, but for those that the crate puts after the
/// symbology.
pub fn of_the_encoder(r: &mut Rng, made: &Made, tally: &mut Tally) {
    let version = 1 + r.below(4) as u8;
    // The encoder has no word for a width of 0.
    let (stream, read) = loop {
        let stream = gen::stream(r, &made.sheet, version);
        match accepted(r, &made.sheet, &stream) {
            Some(values) if values.width > 0 => break (stream, values),
            _ => {}
        }
    };
    let kind = match (BUILDS[made.build][2].encode)(&stream) {
        Ok(theirs) => match accepted(r, &made.sheet, &theirs) {
            Some(values) if !has_tidy_layout(&made.sheet, &theirs, values.width) => {
                Kind::Unexplained(format!("the crate wrote a layout that is not tidy: {}", hex(&theirs)))
            }
            Some(values) if values.symbology.len() == read.symbology.len() => {
                let start = moved(r, &theirs, &values);
                match write(r, &made.sheet, &start) {
                    Ok(Ok(written)) => same_bytes(&written, &theirs),
                    other => Kind::Unexplained(format!("written {other:?}")),
                }
            }
            other => Kind::Unexplained(format!("what the crate wrote is read as {other:?}")),
        },
        Err(text) => Kind::Unexplained(format!("the crate does not write: {text}")),
    };
    let kind = with_input(kind, || format!("stream {}", hex(&stream)));
    tally.add(Beside::Crate, "starts of the crate's encoder", &Answer::Accepted(Box::default()), kind);
}

/// Reserved bytes and version 1's record count are the same, too. From version 3 on the crate fills a block up to a multiple of 8, which the prelude's
/// length counts.
fn same_bytes(written: &[u8], theirs: &[u8]) -> Kind {
    if written == theirs {
        return Kind::Agreed;
    }
    let (more, version) = (theirs.get(written.len()..).unwrap_or(&[]), theirs[3]);
    let mut filled = [written, more].concat();
    gen::match_length(&mut filled);
    let zeros = more.len() < 8 && more.iter().all(|&byte| byte == 0) && theirs.len().is_multiple_of(8);
    if version >= 3 && zeros && filled == theirs {
        return Kind::Listed("filled up to 8: the block writer puts no bytes after the symbology".into());
    }
    Kind::Unexplained(format!("the crate wrote {}, here {}", hex(theirs), hex(written)))
}

/// What was read, bent, and an output that may be too short, held to the plain program.
pub fn any(r: &mut Rng, sheet: &Sheet, tally: &mut Tally) {
    let version = 1 + r.below(4) as u8;
    let stream = gen::stream(r, sheet, version);
    let Some(values) = accepted(r, sheet, &stream) else { return any(r, sheet, tally) };
    let mut start = moved(r, &stream, &values);
    for _ in 0..r.pick(&[0, 1, 1, 1, 2]) {
        starts::bend(r, &mut start);
    }
    let wanted = paper_start::write(&start, &sheet.0);
    let write = |r: &mut Rng, room| ours::write_start(r, &start, sheet, room);
    writer_beside_paper(r, tally, "starts to write", wanted, 112, write, || format!("{start:?}"));
}
