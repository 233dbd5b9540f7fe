//! The fuzz loop's guards are real: a read or a write outside what is lent is seen on either side.
#[allow(dead_code)]
#[path = "../fuzz/lent.rs"]
mod lent;

use lent::{Lent, GUARDED};
use std::{env, process::Command};

/// Set where this program is to touch what it may not: which side of a buffer, and how long that is.
const WORD: &str = "DBN_START_TOUCH";

/// Reads one byte outside a buffer, on the side of its page.
fn touch(after: bool, length: usize) {
    let lent = Lent::beside(&vec![7u8; length], after);
    let place = if after { length as isize } else { -1 };
    // SAFETY: it is not, and that is the point: the read must end the program.
    let byte = unsafe { lent.at().offset(place).read_volatile() };
    println!("read {byte}");
}

#[test]
fn a_read_of_one_byte_too_many_ends_the_program() {
    if let Ok(word) = env::var(WORD) {
        let (side, length) = word.split_once(' ').expect("a side and a length");
        return touch(side == "after", length.parse().expect("a length"));
    }
    if !GUARDED {
        return println!("this system has no guard pages here");
    }
    for length in [0, 1, 8, 4095, 4096, 100_000] {
        for side in ["before", "after"] {
            let own = env::current_exe().expect("this program's name");
            let words = ["--exact", "a_read_of_one_byte_too_many_ends_the_program"];
            let ended = Command::new(own).args(words).env(WORD, format!("{side} {length}")).output().expect("a run");
            assert_eq!(ended_by(&ended.status), Some(11), "{side} {length} bytes: {ended:?}");
        }
    }
}

/// The signal that ended a program.
#[cfg(unix)]
fn ended_by(status: &std::process::ExitStatus) -> Option<i32> {
    std::os::unix::process::ExitStatusExt::signal(status)
}

#[cfg(not(unix))]
fn ended_by(_: &std::process::ExitStatus) -> Option<i32> {
    None
}

#[test]
#[should_panic(expected = "a guard byte beside the buffer was changed")]
fn a_write_before_a_buffer_is_seen() {
    let mut lent = Lent::beside(&[1u32, 2, 3], true);
    // SAFETY: the region has guard bytes there.
    unsafe { lent.at_mut().offset(-1).write(9) };
    lent.content("the buffer");
}

#[test]
#[should_panic(expected = "a guard byte beside the buffer was changed")]
fn a_write_after_a_buffer_is_seen() {
    let mut lent = Lent::beside(&[1u64, 2, 3], false);
    // SAFETY: the region has guard bytes there.
    unsafe { lent.at_mut().add(3).write(9) };
    lent.content("the buffer");
}

#[test]
fn a_buffer_holds_what_is_put_in_and_regions_are_used_again() {
    for length in [0, 1, 7, 500, 5000, 70_000] {
        for after in [false, true] {
            let content: Vec<u16> = (0..length).map(|i| i as u16).collect();
            let mut lent = Lent::beside(&content, after);
            lent.unchanged("the buffer", &content);
            let first = lent.at();
            if length > 0 {
                // SAFETY: the buffer has that place.
                unsafe { lent.at_mut().add(length - 1).write(77) };
                assert_eq!(lent.content("the buffer")[length - 1], 77);
            }
            drop(lent);
            assert_eq!(Lent::beside(&content, after).at(), first, "the same region");
        }
    }
}
