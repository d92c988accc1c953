//! A second opinion on collecting broadcast objects.
//!
//! The collector of this project is proved. This package is what it is compared with, so it
//! shares neither code nor method with it: the check word is worked one bit at a time, a conflict
//! is found by searching for an object and a cut, and what is held is a plain list of segments.
//! Where there is a choice, the plainest way is taken.
//!
//! ```
//! use independent::answer::Answer;
//! use independent::collector::{Collector, Memory};
//! use independent::group::{Fields, Part};
//!
//! let (limit, slots) = (12_288, 2);
//! let mut collector = Collector::open(limit, slots, Memory::filled(limit, slots, 0)).unwrap();
//! let header = [0x00, 0x00, 0x00, 0x00, 0x03, 0x84, 0x01];
//! let group = Fields::of_segment(0x0005, Part::Header, 0, true, &header).whole();
//! assert_eq!(collector.take(&group).answer, Answer::Complete);
//! assert_eq!(collector.show(0x0005, Part::Header), Ok(&header[..]));
//! assert_eq!(collector.memory.marks[0], 1);
//! assert_eq!(collector.counts.completed, 1);
//! ```

pub mod answer;
pub mod check_word;
pub mod collector;
pub mod group;
pub mod header;
pub mod listing;
pub mod object;
pub mod random;
pub mod state;
