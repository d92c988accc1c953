//! The proved collector of broadcast objects, owned.
//!
//! [`Collector`] owns the memory that the library works in; [`lent`] has the same calls on memory
//! that is lent, for a head that maps its state or keeps it across restarts.
//!
//! ```
//! use yovtirak::{Answer, Collector};
//!
//! // A header segment 0, the last one, of object 5: a header of 7 bytes and no body.
//! let group = [
//!     0x73, 0x00, 0x80, 0x00, 0x12, 0x00, 0x05, 0x00, 0x07, // data group and segment headers
//!     0x00, 0x00, 0x00, 0x00, 0x03, 0x84, 0x01, // the header core
//!     0x69, 0x0F, // the check word
//! ];
//! let mut collector = Collector::open(12_288, 2).unwrap();
//! let reply = collector.take(&group);
//! assert_eq!(reply.answer, Answer::Complete);
//! assert_eq!(reply.segment.unwrap().number, 5);
//! assert_eq!(collector.header(5).unwrap(), &group[9..16]);
//! assert_eq!(collector.body(5).unwrap(), &[]);
//!
//! // Some encoders send an empty body segment too: it is stored once, and the object is the same.
//! let empty = [
//!     0x74, 0x00, 0x80, 0x00, 0x12, 0x00, 0x05, 0x00, 0x00, // data group and segment headers
//!     0xD0, 0x69, // the check word
//! ];
//! assert_eq!(collector.take(&empty).answer, Answer::Stored);
//! assert_eq!(collector.take(&empty).answer, Answer::Repeat);
//! assert_eq!(collector.body(5).unwrap(), &[]);
//!
//! // The same segment again, for some end user: twice more to come, its object without end.
//! let repeat = [
//!     0x74, 0x32, 0x80, 0x00, 0x14, 0x00, 0x05, 0xA1, 0xB2, 0xE0, 0x00, // with an address
//!     0xC4, 0x83, // the check word
//! ];
//! let reply = collector.take(&repeat);
//! assert_eq!(reply.answer, Answer::Repeat);
//! let repetition = reply.repetition.unwrap();
//! assert_eq!((repetition.index, repetition.continuity, repetition.count), (2, 3, 7));
//! assert_eq!(yovtirak::end_user_address(&repeat), Ok(&[0xA1, 0xB2][..]));
//! assert_eq!(yovtirak::end_user_address(&repeat[1..]), Err(Answer::NoCheck));
//!
//! // How much of an object is still to come: the last four of its bytes tell nothing, its header
//! // says that the body has 20.
//! let last = [
//!     0x74, 0x00, 0x80, 0x01, 0x12, 0x00, 0x09, 0x00, 0x04, // data group and segment headers
//!     0x74, 0x75, 0x76, 0x77, // body segment 1, the last one
//!     0x75, 0x1D, // the check word
//! ];
//! let header = [
//!     0x73, 0x00, 0x80, 0x00, 0x12, 0x00, 0x09, 0x00, 0x07, // data group and segment headers
//!     0x00, 0x00, 0x01, 0x40, 0x03, 0x80, 0x00, // the header core
//!     0x96, 0x59, // the check word
//! ];
//! assert_eq!(collector.missing(9), Err(Answer::NotHeld));
//! assert_eq!(collector.take(&last).answer, Answer::Stored);
//! assert_eq!(collector.missing(9), Ok(None));
//! assert_eq!(collector.take(&header).answer, Answer::Stored);
//! assert_eq!(collector.missing(9), Ok(Some(16)));
//! assert_eq!(collector.missing(5), Ok(Some(0)));
//!
//! assert_eq!(collector.find(b"logo.png"), Err(Answer::NotFound));
//! assert_eq!(collector.counts().completed, 1);
//! ```

mod answer;
pub mod lent;

pub use answer::{Answer, Part, Repetition, Reply, Segment};
use lent::{COUNTS, FIELD_WORDS, HEADER_SHARE, MARKS_SHARE, PLACE_WORDS, STATE_WORDS};

/// The end user address of a group, a part of it, of no bytes where it has none; or the refusal,
/// [`Answer::Length`] to [`Answer::Size`], of a group that doesn't read. It needs no collector.
pub fn end_user_address(group: &[u8]) -> Result<&[u8], Answer> {
    let said = lent::address(group);
    match said & 0xFF {
        0 => {
            let (start, length) = ((said >> 16) as u16, (said >> 32) as u16);
            Ok(&group[usize::from(start)..][..usize::from(length)])
        }
        refused => Err(Answer::of(refused)),
    }
}

/// How many answers of each kind there were since opening; each stays at 2147483647.
#[derive(Clone, Copy, Debug, Default, PartialEq, Eq)]
pub struct Counts {
    pub taken: u32,
    pub repeated: u32,
    pub refused: u32,
    pub completed: u32,
    pub dropped: u32,
}

/// What the header of a finished object says.
#[derive(Clone, Copy, Debug, PartialEq, Eq)]
pub struct Parameters<'a> {
    pub body_size: u32,
    pub header_size: u16,
    pub content_type: u8,
    pub content_sub_type: u16,
    pub priority: Option<u8>,
    /// ContentName's data: the character set byte, then the name.
    pub name: Option<&'a [u8]>,
}

/// A collector that owns its memory.
pub struct Collector {
    limit: usize,
    state: [u64; STATE_WORDS],
    counts: [u32; COUNTS],
    header: Vec<u8>,
    body: Vec<u8>,
    marks: Vec<u8>,
}

impl Collector {
    /// Opens a collector for bodies up to `limit` bytes (1,024 to 1,048,576), with 1 to 16 slots.
    pub fn open(limit: usize, slots: usize) -> Result<Collector, Answer> {
        // Nothing is set aside for a limit or a number of slots that is out of bounds.
        if limit > 1_048_576 || slots > 16 {
            return Err(Answer::Limits);
        }
        let mut collector = Collector {
            limit,
            state: [0; STATE_WORDS],
            counts: [0; COUNTS],
            header: vec![0; slots * HEADER_SHARE],
            body: vec![0; slots * limit],
            marks: vec![0; slots * MARKS_SHARE],
        };
        match lent::open(
            limit,
            slots,
            &mut collector.state,
            &mut collector.counts,
            &collector.header,
            &collector.body,
            &mut collector.marks,
        ) {
            0 => Ok(collector),
            refused => Err(Answer::of(refused)),
        }
    }

    /// Takes one MSC data group, of any bytes.
    pub fn take(&mut self, group: &[u8]) -> Reply {
        Reply::of(lent::take(
            &mut self.state,
            &mut self.counts,
            group,
            &mut self.header,
            &mut self.body,
            &mut self.marks,
        ))
    }

    /// Drops what is held under a transport number.
    pub fn drop_number(&mut self, number: u16) -> Answer {
        Reply::of(lent::drop(
            &mut self.state,
            &mut self.counts,
            number,
            &self.header,
            &self.body,
            &mut self.marks,
        ))
        .answer
    }

    /// How many bytes of an object are still to come, finished or not: those of its header and body
    /// that have not arrived, or `None` while one of the two lengths is not known.
    pub fn missing(&self, number: u16) -> Result<Option<u32>, Answer> {
        let said = lent::missing(
            &self.state,
            &self.counts,
            number,
            &self.header,
            &self.body,
            &self.marks,
        );
        match said & 0xFF {
            0 => Ok((said >> 16).checked_sub(1).map(|bytes| bytes as u32)),
            refused => Err(Answer::of(refused)),
        }
    }

    /// A finished object's header.
    pub fn header(&self, number: u16) -> Result<&[u8], Answer> {
        let [slot, length, _] = self.finished(number)?;
        Ok(&self.header[slot * HEADER_SHARE..][..length])
    }

    /// A finished object's body.
    pub fn body(&self, number: u16) -> Result<&[u8], Answer> {
        let [slot, _, length] = self.finished(number)?;
        Ok(&self.body[slot * self.limit..][..length])
    }

    /// What a finished object's header says.
    pub fn parameters(&self, number: u16) -> Result<Parameters<'_>, Answer> {
        let mut told = [0; FIELD_WORDS];
        let said = lent::read(
            &self.state,
            &self.counts,
            number,
            &self.header,
            &self.body,
            &self.marks,
            &mut told,
        );
        if said != 0 {
            return Err(Answer::of(said));
        }
        let header = self.header(number)?;
        let [body_size, header_size, content_type, content_sub_type, priority, start, length] =
            told;
        Ok(Parameters {
            body_size: body_size as u32,
            header_size: header_size as u16,
            content_type: content_type as u8,
            content_sub_type: content_sub_type as u16,
            priority: u8::try_from(priority).ok(),
            name: (length > 0).then(|| &header[start as usize..][..length as usize]),
        })
    }

    /// The lowest transport number among the finished objects of this name, which comes without a
    /// character set byte; one leading slash on either side plays no part.
    pub fn find(&self, name: &[u8]) -> Result<u16, Answer> {
        let said = lent::find(
            &self.state,
            &self.counts,
            name,
            &self.header,
            &self.body,
            &self.marks,
        );
        match said & 0xFF {
            0 => Ok((said >> 16) as u16),
            refused => Err(Answer::of(refused)),
        }
    }

    pub fn counts(&self) -> Counts {
        let [taken, repeated, refused, completed, dropped] = self.counts;
        Counts {
            taken,
            repeated,
            refused,
            completed,
            dropped,
        }
    }

    /// Where a finished object is: its slot and the two lengths.
    fn finished(&self, number: u16) -> Result<[usize; PLACE_WORDS], Answer> {
        let mut place = [0; PLACE_WORDS];
        match lent::finished(
            &self.state,
            &self.counts,
            number,
            &self.header,
            &self.body,
            &self.marks,
            &mut place,
        ) {
            0 => Ok(place.map(|word| word as usize)),
            refused => Err(Answer::of(refused)),
        }
    }
}
