//! Nights: the program morning on a file, and a plain loop over `dbn_feed` on the same bytes, read in the same pieces with the same store and tables.
use super::{median, shapes, thread_time};
use dbn_start::ffi;
use std::{
    fs::File,
    io::Read,
    path::{Path, PathBuf},
    process::{Command, Stdio},
};

/// Bytes of a piece and of the store, and rows of each table.
const PIECE: usize = 4_096;
const STORE: usize = 65_536;
const ROWS: usize = 1_024;

extern "C" {
    fn getrusage(who: i32, usage: *mut [i64; 18]) -> i32;
}

/// What this process's children that have ended have run, in nanoseconds, the system's part included.
fn children_time() -> f64 {
    const RUSAGE_CHILDREN: i32 = -1;
    let mut usage = [0; 18];
    // SAFETY: `usage` has the words of a rusage: two times of two words each, and fourteen numbers.
    let failed = unsafe { getrusage(RUSAGE_CHILDREN, &mut usage) };
    assert_eq!(failed, 0, "the children's clock");
    (usage[0] + usage[2]) as f64 * 1e9 + (usage[1] + usage[3]) as f64 * 1e3
}

/// A night in a file, which is removed in the end.
pub struct Night {
    path: PathBuf,
    pub bytes: usize,
    starts: u64,
    rows: u64,
}

impl Drop for Night {
    fn drop(&mut self) {
        _ = std::fs::remove_file(&self.path);
    }
}

impl Night {
    /// So many times a version 3 start with so many symbols of 71 bytes.
    pub fn of(starts: usize, symbols: usize) -> Self {
        let mut symbology = (symbols as u32).to_le_bytes().to_vec();
        (0..symbols).for_each(|i| symbology.extend(shapes::symbol(i, 71)));
        symbology.extend([0; 12]);
        let night = shapes::stream_of(3, &shapes::block(3, 71, &symbology)).repeat(starts);
        let path = std::env::temp_dir().join(format!("night-{}-{symbols}", std::process::id()));
        std::fs::write(&path, &night).expect("a file for the night");
        Self { path, bytes: night.len(), starts: starts as u64, rows: (starts * symbols) as u64 }
    }

    /// The time of the program morning and of the plain loop: medians of so many turns. None where the program is not there, or not for this processor.
    pub fn times(&self, turns: usize) -> Option<(f64, f64)> {
        let program = Path::new(env!("CARGO_MANIFEST_DIR")).join("../crates/morning/out/morning");
        if !cfg!(target_arch = "x86_64") || !program.is_file() {
            return None;
        }
        let (mut here, mut plain) = (Vec::new(), Vec::new());
        for _ in 0..turns {
            let start = children_time();
            self.morning(&program);
            here.push(children_time() - start);
            let start = thread_time();
            assert_eq!(self.plain(), (self.starts, self.rows));
            plain.push(thread_time() - start);
        }
        Some((median(here), median(plain)))
    }

    fn morning(&self, program: &Path) {
        let night = File::open(&self.path).expect("the night");
        let ran = Command::new(program).stdin(night).stderr(Stdio::inherit()).output().expect("morning runs");
        let told = format!("kind count\naccepted {0}\nrows {1}\ntotal {0}\n", self.starts, self.rows);
        assert_eq!(ran.stdout, told.as_bytes());
    }

    /// How many starts are accepted, and their symbology rows.
    fn plain(&self) -> (u64, u64) {
        let mut night = File::open(&self.path).expect("the night");
        let (mut store, mut piece) = (vec![0; STORE], [0; PIECE]);
        let (mut symbology, mut layout) = (vec![0; ROWS * ffi::SYMBOLOGY_ROW], vec![0; ROWS * ffi::LAYOUT_ROW]);
        let (mut held, mut starts, mut rows) = (0, 0, 0);
        loop {
            let n = night.read(&mut piece).expect("a piece");
            if n == 0 {
                return (starts, rows);
            }
            let mut rest = &piece[..n];
            while !rest.is_empty() {
                let mut out = [0; 20];
                // SAFETY: every pointer is to a buffer of the given length, and no two overlap.
                let number = unsafe {
                    ffi::dbn_feed(
                        held,
                        store.as_mut_ptr(),
                        store.len(),
                        rest.as_ptr(),
                        rest.len(),
                        &[0; ffi::SHEET],
                        symbology.as_mut_ptr(),
                        symbology.len(),
                        layout.as_mut_ptr(),
                        layout.len(),
                        &mut out,
                    )
                };
                assert_eq!(number, 0, "an accepted start");
                rest = &rest[out[16] as usize..];
                held = out[17];
                if out[18] == 0 {
                    (held, starts, rows) = (0, starts + 1, rows + out[10]);
                }
            }
        }
    }
}
