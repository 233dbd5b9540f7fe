//! Request 12 of document 02 as a plain program: what came of each input of a night, and the report, with no care for speed. It reads the night as a
//! whole and knows no pieces.
use crate::{
    paper::{self, Sheet, Stage},
    walk,
};

/// Bytes of the store, and rows that each table holds.
const STORE: usize = 65_536;
const ROWS: usize = 1_024;

/// What came of an input.
#[derive(Debug, Clone, Copy, PartialEq, Eq, PartialOrd, Ord)]
pub enum Outcome {
    /// Accepted, with so many symbology rows.
    Accepted(usize),
    Refused(u32),
    Cut,
}

/// What came of each input of a night, in order.
pub fn history(night: &[u8], s: &Sheet) -> Vec<Outcome> {
    let (mut history, mut store, mut from) = (Vec::new(), vec![0; STORE], 0);
    while from < night.len() {
        let (taken, stage) = paper::feed(0, &mut store, &night[from..], s);
        let outcome = match stage {
            Stage::Needs(_) => Outcome::Cut,
            Stage::Refused((number, _)) => Outcome::Refused(number),
            Stage::Done => accepted(&store[..taken]),
        };
        history.push(outcome);
        if matches!(outcome, Outcome::Cut | Outcome::Refused(2 | 3 | 10..=12)) {
            break;
        }
        from += taken;
    }
    history
}

/// An accepted start, unless it has more rows than a table holds.
fn accepted(start: &[u8]) -> Outcome {
    let values = walk::block(start[3], &start[8..]);
    match values.symbology.len() > ROWS || values.layout.len() > ROWS {
        true => Outcome::Refused(3),
        false => Outcome::Accepted(values.symbology.len()),
    }
}

/// The report of a history.
pub fn report(history: &[Outcome]) -> String {
    let count = |wanted: fn(&Outcome) -> bool| history.iter().filter(|outcome| wanted(outcome)).count();
    let mut lines = vec!["kind count".to_string()];
    lines.push(format!("accepted {}", count(|outcome| matches!(outcome, Outcome::Accepted(_)))));
    for number in 0..256 {
        let times = history.iter().filter(|&&outcome| outcome == Outcome::Refused(number)).count();
        if times > 0 {
            lines.push(format!("refused {number} {times}"));
        }
    }
    let cut = count(|&outcome| outcome == Outcome::Cut);
    if cut > 0 {
        lines.push(format!("cut {cut}"));
    }
    let rows = history.iter().map(|outcome| if let Outcome::Accepted(rows) = outcome { *rows } else { 0 });
    lines.push(format!("rows {}", rows.sum::<usize>()));
    lines.push(format!("total {}", history.len()));
    lines.join("\n") + "\n"
}

#[cfg(test)]
mod tests {
    use super::*;

    /// A version 2 start without symbols, with this schema; one symbol of two bytes where it is asked for.
    fn start(schema: u8, symbols: u8) -> Vec<u8> {
        let mut out = b"DBN\x02".to_vec();
        out.extend((120 + 2 * u32::from(symbols)).to_le_bytes());
        out.resize(128 + 2 * usize::from(symbols), 0);
        (out[8 + 16], out[8 + 45], out[8 + 104]) = (schema, 2, symbols);
        out
    }

    #[test]
    fn a_night_by_hand() {
        assert_eq!(report(&history(b"", &[0; 520])), "kind count\naccepted 0\nrows 0\ntotal 0\n");
        let starts = [start(0, 0), start(20, 0), start(1, 3), start(99, 0), start(19, 1)].concat();
        let counted = "kind count\naccepted 3\nrefused 21 2\n";
        assert_eq!(report(&history(&starts, &[0; 520])), format!("{counted}rows 4\ntotal 5\n"));
        let cut = [&starts[..], &start(0, 0)[..127]].concat();
        assert_eq!(report(&history(&cut, &[0; 520])), format!("{counted}cut 1\nrows 4\ntotal 6\n"));
        let mut broken = [&starts[..], b"DBN\x02\x63\0\0\0", &starts].concat();
        let refused = "kind count\naccepted 3\nrefused 12 1\nrefused 21 2\nrows 4\ntotal 6\n";
        assert_eq!(report(&history(&broken, &[0; 520])), refused);
        broken[starts.len() + 4..starts.len() + 8].copy_from_slice(&65_529u32.to_le_bytes());
        assert_eq!(report(&history(&broken, &[0; 520])), refused.replace("refused 12 1", "refused 2 1"));
    }
}
