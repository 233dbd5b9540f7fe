use crate::{
    block::{guess, lent, TABLE_SHORT},
    ffi, prelude, Block, Limits, Prelude, Refusal, RefusalKind, Sheet, Tables,
};
use std::{
    fmt,
    io::{self, Read},
};

/// The length of a prelude.
const PRELUDE: usize = 8;
/// The room that the first bytes of a block are given, where the block is not shorter.
const FIRST: usize = 120 << 10;

/// A stream start that arrives in pieces, cut anywhere.
///
/// It holds the bytes that came so far, and once the block is whole it lends them, with row tables, to the proved reader. What it
/// holds grows with what arrives, up to the caller's [`Limits`]. A block is read once: after [`Step::Done`], or after a refusal, a
/// feed takes nothing more and gives the same answer until [`Feed::reset`].
#[derive(Clone)]
pub struct Feed {
    sheet: Option<Box<Sheet>>,
    limits: Limits,
    store: Vec<u8>,
    tables: Tables,
    stage: Stage,
}

/// Where a feed stands.
#[derive(Clone, Copy)]
enum Stage {
    /// The prelude is not whole.
    Prelude,
    /// The prelude announces a start of so many bytes, its own eight among them, which are not all there.
    Block(usize),
    /// The block was read, and these are its numbers.
    Done([u64; 16]),
    /// What came was refused.
    Refused(Refusal),
}

/// How far a stream start has come.
#[derive(Debug, Clone, Copy, PartialEq, Eq)]
pub enum Step {
    /// So many bytes end the present stage, and no fewer do.
    Needs(usize),
    /// The block is read: [`Feed::block`] has it.
    Done,
}

/// What a piece came to.
#[derive(Debug, Clone, Copy, PartialEq, Eq)]
pub struct Fed {
    /// How many of its bytes belong to the stream's start.
    pub taken: usize,
    /// How far that is.
    pub step: Step,
}

impl Feed {
    /// A start of which nothing has come yet. Without a sheet a version 4 stream is refused by [`RefusalKind::NoSheet`].
    pub fn new(limits: Limits) -> Self {
        Self { sheet: None, limits, store: Vec::new(), tables: Tables::new(limits.rows), stage: Stage::Prelude }
    }

    /// The feed with a type sheet, which version 4 streams are judged by.
    #[must_use]
    pub fn with_sheet(self, sheet: Sheet) -> Self {
        Self { sheet: Some(Box::new(sheet)), ..self }
    }

    /// Takes what the start still needs of a piece. Bytes that it does not take come after the start. Where it is refused,
    /// [`Feed::held`] has what it took.
    pub fn feed(&mut self, piece: &[u8]) -> Result<Fed, Refusal> {
        let mut rest = piece;
        let mut step = self.step()?;
        while let (Step::Needs(needed), false) = (step, rest.is_empty()) {
            let (now, later) = rest.split_at(needed.min(rest.len()));
            rest = later;
            self.unless_refused(|feed| feed.hold(now).and_then(|()| feed.go_on()))?;
            step = self.step()?;
        }
        Ok(Fed { taken: piece.len() - rest.len(), step })
    }

    /// Reads what the start still needs from a source, straight into the feed's own store, and no byte after the start. [`Step::Needs`] is the
    /// answer where the source ends before. Where the source has an error, what came until then is held, and another call goes on. A refusal
    /// is in the error, and [`Feed::step`] has it too.
    pub fn read_from(&mut self, source: &mut (impl Read + ?Sized)) -> io::Result<Step> {
        let mut step = self.step().map_err(io::Error::other)?;
        while let Step::Needs(needed) = step {
            self.unless_refused(|feed| feed.room(1)).map_err(io::Error::other)?;
            let most = needed.min(self.store.capacity() - self.store.len());
            let came = (&mut *source).take(most as u64).read_to_end(&mut self.store);
            self.unless_refused(Self::go_on).map_err(io::Error::other)?;
            step = self.step().map_err(io::Error::other)?;
            if came? < most {
                break;
            }
        }
        Ok(step)
    }

    /// How far the start has come. Nothing is read for that.
    pub fn step(&self) -> Result<Step, Refusal> {
        match self.stage {
            Stage::Prelude => Ok(Step::Needs(PRELUDE - self.store.len())),
            Stage::Block(whole) => Ok(Step::Needs(whole - self.store.len())),
            Stage::Done(_) => Ok(Step::Done),
            Stage::Refused(refusal) => Err(refusal),
        }
    }

    /// The block, once [`Step::Done`] was answered.
    pub fn block(&self) -> Option<Block<'_>> {
        let Stage::Done(out) = &self.stage else { return None };
        Some(Block::accepted(self.store[3], &self.store[PRELUDE..], out, &self.tables))
    }

    /// The bytes held so far, the prelude's among them.
    pub fn held(&self) -> &[u8] {
        &self.store
    }

    /// Hands over the bytes held so far, the prelude's among them, and begins anew.
    pub fn take_held(&mut self) -> Vec<u8> {
        self.stage = Stage::Prelude;
        std::mem::take(&mut self.store)
    }

    /// Begins anew, for another stream. Sheet, limits and memory stay.
    pub fn reset(&mut self) {
        self.stage = Stage::Prelude;
        self.store.clear();
    }

    /// Holds bytes of the present stage.
    fn hold(&mut self, bytes: &[u8]) -> Result<(), Refusal> {
        self.room(bytes.len())?;
        self.store.extend_from_slice(bytes);
        Ok(())
    }

    /// Makes room for so many bytes more of the present stage. The room doubles as they come and never passes the stage's end. So it is at most
    /// [`FIRST`] or twice what came, whatever the prelude claims, and half as much more while the store moves.
    fn room(&mut self, more: usize) -> Result<(), Refusal> {
        let (held, room) = (self.store.len(), self.store.capacity());
        if more <= room - held {
            return Ok(());
        }
        let whole = if let Stage::Block(whole) = self.stage { whole } else { PRELUDE };
        let room = (2 * room).max(FIRST).min(whole).max(held + more);
        self.store.try_reserve_exact(room - held).map_err(|_| Refusal::own(RefusalKind::NoMemory))
    }

    /// Goes on to the next stage where what is held ends the present one.
    fn go_on(&mut self) -> Result<(), Refusal> {
        match self.stage {
            Stage::Prelude if self.store.len() == PRELUDE => self.stage = self.announced()?,
            Stage::Block(whole) if self.store.len() == whole => self.stage = self.read()?,
            _ => {}
        }
        Ok(())
    }

    /// Does a part of the work. A refusal is the feed's last stage.
    fn unless_refused(&mut self, work: impl FnOnce(&mut Self) -> Result<(), Refusal>) -> Result<(), Refusal> {
        work(self).inspect_err(|&refusal| self.stage = Stage::Refused(refusal))
    }

    /// The stage after a whole prelude.
    fn announced(&self) -> Result<Stage, Refusal> {
        let Prelude::Whole { version, length } = prelude(&self.store)? else {
            panic!("the library dbn_c broke its promise: eight bytes are no whole prelude")
        };
        lent(version, self.sheet.as_deref())?;
        match PRELUDE.checked_add(length as usize) {
            Some(whole) if whole <= self.limits.bytes => Ok(Stage::Block(whole)),
            _ => Err(Refusal::own(RefusalKind::StoreShort)),
        }
    }

    /// The stage after a whole block, whose bytes are all held.
    fn read(&mut self) -> Result<Stage, Refusal> {
        guess(self.store[3], &self.store[PRELUDE..], &mut self.tables);
        let mut out = [0; 20];
        let mut number = self.call(&mut out)?;
        if number == TABLE_SHORT {
            self.tables.grow(out[10], out[11])?;
            number = self.call(&mut out)?;
            assert_ne!(number, TABLE_SHORT, "the library dbn_c broke its promise: the rows it needs are not enough");
        }
        Refusal::unless_read(number, out[ffi::PLACE])?;
        let whole = self.store.len() as u64;
        assert_eq!(out[16..19], [0, whole, 0], "the library dbn_c broke its promise: a whole start is not done");
        Ok(Stage::Done(*out.first_chunk().expect("sixteen of twenty numbers")))
    }

    /// The reader's answer on a store that is all held.
    fn call(&mut self, out: &mut [u64; 20]) -> Result<u32, Refusal> {
        let sheet = lent(self.store[3], self.sheet.as_deref())?;
        let Tables { symbology, layout, .. } = &mut self.tables;
        let (store, nothing) = (&mut self.store, [0u8; 0]);
        // SAFETY: each pointer and length are those of a slice, and no two of them overlap.
        Ok(unsafe {
            ffi::dbn_feed(
                store.len() as u64,
                store.as_mut_ptr(),
                store.len(),
                nothing.as_ptr(),
                0,
                sheet,
                symbology.as_mut_ptr(),
                symbology.len(),
                layout.as_mut_ptr(),
                layout.len(),
                out,
            )
        })
    }
}

impl fmt::Debug for Feed {
    fn fmt(&self, f: &mut fmt::Formatter<'_>) -> fmt::Result {
        let mut shown = f.debug_struct("Feed");
        shown.field("held", &self.store.len()).field("step", &self.step()).field("limits", &self.limits);
        shown.field("sheet", &self.sheet.is_some()).finish_non_exhaustive()
    }
}
