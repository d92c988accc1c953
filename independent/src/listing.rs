//! The listing program (document 01, "The listing program"): records in, one a line, and for each
//! a line with the answer; at the end the five counts.

use crate::answer::Reply;
use crate::collector::{Collector, Memory};
use crate::group::{with_check, Part};
use std::io::{self, BufRead, Write};

pub const LONGEST_LINE: usize = 16_432;
pub const SLOTS: usize = 2;
pub const LIMIT: usize = 12_288;

/// Every answer that a listing can show.
pub const ANSWERS: [&str; 15] = [
    "STORED",
    "COMPLETE",
    "REPEAT",
    "DROPPED",
    "LENGTH",
    "NOCHECK",
    "BADCHECK",
    "KIND",
    "NOSEGMENT",
    "ADDRESS",
    "SIZE",
    "CONFLICT",
    "FULL",
    "NOTHELD",
    "LINE",
];

/// What a line asks for.
#[derive(Clone, Debug, PartialEq, Eq)]
pub enum Record {
    Group(Vec<u8>),
    Drop(u16),
}

/// Reads a line without its newline; nothing if it is to be answered LINE.
pub fn record(line: &[u8]) -> Option<Record> {
    if line.len() > LONGEST_LINE {
        return None;
    }
    let (letter, digits) = match line {
        [letter, b'\t', digits @ ..] => (*letter, digits),
        _ => return None,
    };
    let bytes = bytes_of(digits)?;
    match letter {
        b'G' => Some(Record::Group(bytes)),
        b'B' => Some(Record::Group(with_check(bytes))),
        b'D' => match bytes[..] {
            [high, low] => Some(Record::Drop(u16::from_be_bytes([high, low]))),
            _ => None,
        },
        _ => None,
    }
}

/// The bytes of an even count of lower-case hex digits.
fn bytes_of(digits: &[u8]) -> Option<Vec<u8>> {
    let value = |digit: u8| match digit {
        b'0'..=b'9' => Some(digit - b'0'),
        b'a'..=b'f' => Some(digit - b'a' + 10),
        _ => None,
    };
    if !digits.len().is_multiple_of(2) {
        return None;
    }
    digits
        .chunks(2)
        .map(|pair| Some(value(pair[0])? << 4 | value(pair[1])?))
        .collect()
}

/// Puts the next line, without its newline, into `line`; false where there is none. Of a line
/// that is too long only as much is kept as shows it, so memory doesn't grow with the input.
fn next_line(input: &mut impl BufRead, line: &mut Vec<u8>) -> io::Result<bool> {
    line.clear();
    let mut any = false;
    loop {
        let ready = input.fill_buf()?;
        if ready.is_empty() {
            return Ok(any);
        }
        any = true;
        let newline = ready.iter().position(|&byte| byte == b'\n');
        let of_this_line = newline.unwrap_or(ready.len());
        let room = (LONGEST_LINE + 1).saturating_sub(line.len());
        line.extend(&ready[..of_this_line.min(room)]);
        input.consume(of_this_line + usize::from(newline.is_some()));
        if newline.is_some() {
            return Ok(true);
        }
    }
}

/// What is printed after the line's number; LINE has no reply of the collector's.
fn shown(reply: Option<Reply>) -> String {
    let Some(reply) = reply else {
        return "LINE - - - - - -".to_string();
    };
    let dash = || "-".to_string();
    let transport = reply
        .transport
        .map_or_else(dash, |number| format!("{number:04x}"));
    let part = reply.part.map_or("-", |part| match part {
        Part::Header => "H",
        Part::Body => "B",
    });
    let segment = reply.segment.map_or_else(dash, |number| number.to_string());
    let repetition = reply.repetition.map_or("- - -".to_string(), |said| {
        format!("{} {} {}", said.index, said.continuity, said.count)
    });
    let answer = reply.answer.name();
    format!("{answer} {transport} {part} {segment} {repetition}")
}

/// Runs the program. Each answer is out before the next line is read.
pub fn run(mut input: impl BufRead, mut output: impl Write) -> io::Result<()> {
    let mut collector = Collector::open(LIMIT, SLOTS, Memory::filled(LIMIT, SLOTS, 0))
        .expect("the listing's own limits are within the bounds");
    let mut line = Vec::new();
    let mut number: u64 = 0;
    while next_line(&mut input, &mut line)? {
        number += 1;
        let reply = record(&line).map(|record| match record {
            Record::Group(group) => collector.take(&group),
            Record::Drop(transport) => collector.drop_number(transport),
        });
        writeln!(output, "{number} {}", shown(reply))?;
        output.flush()?;
    }
    let [taken, repeated, refused, completed, dropped] = collector.counts.in_order();
    writeln!(
        output,
        "T {taken} {repeated} {refused} {completed} {dropped}"
    )?;
    output.flush()
}

#[cfg(test)]
mod tests {
    use super::*;
    use crate::group::Fields;
    use std::io::BufReader;

    fn output_for(input: &[u8]) -> String {
        let mut output = Vec::new();
        run(input, &mut output).unwrap();
        String::from_utf8(output).unwrap()
    }

    /// The first output line's answer.
    fn answer(line: &[u8]) -> String {
        let output = output_for(line);
        output.split(' ').nth(1).unwrap().to_string()
    }

    fn hex(letter: char, bytes: &[u8]) -> Vec<u8> {
        let digits: String = bytes.iter().map(|byte| format!("{byte:02x}")).collect();
        format!("{letter}\t{digits}").into_bytes()
    }

    #[test]
    fn no_lines() {
        assert_eq!(output_for(b""), "T 0 0 0 0 0\n");
    }

    #[test]
    fn the_last_line_needs_no_newline_and_a_final_one_starts_no_line() {
        let one = "1 LENGTH - - - - - -\nT 0 0 1 0 0\n";
        assert_eq!(output_for(b"G\t00"), one);
        assert_eq!(output_for(b"G\t00\n"), one);
        assert_eq!(
            output_for(b"G\t00\n\n"),
            "1 LENGTH - - - - - -\n2 LINE - - - - - -\nT 0 0 1 0 0\n"
        );
        assert_eq!(output_for(b"\n"), "1 LINE - - - - - -\nT 0 0 0 0 0\n");
    }

    #[test]
    fn no_digits_mean_no_bytes() {
        assert_eq!(answer(b"G\t"), "LENGTH");
        // The check word of no bytes is 00 00, whose CRC flag is 0.
        assert_eq!(answer(b"B\t"), "NOCHECK");
        assert_eq!(answer(b"D\t"), "LINE");
    }

    #[test]
    fn malformed_lines() {
        for line in [
            &b"G"[..],
            b"B",
            b"D",
            b"G 00",
            b"G\t0",
            b"G\t0A",
            b"G\t00\r",
            b"\r",
            b"G\t00 ",
            b" G\t00",
            b"G\t\t00",
            b"G\t00\t",
            b"g\t00",
            b"T\t00",
            b"GB\t00",
            b"\t00",
            b"D\t005",
            b"D\t00005",
            b"D\t000005",
            b"D\t000A",
            b"D\t00g5",
            b"G\t\x00\x00",
            b"G\t\xff\xfe",
        ] {
            assert_eq!(answer(line), "LINE", "{line:?}");
        }
    }

    #[test]
    fn six_dashes() {
        assert_eq!(
            output_for(b"D\tbeef\nx\n"),
            "1 NOTHELD - - - - - -\n2 LINE - - - - - -\nT 0 0 0 0 0\n"
        );
    }

    /// Document 02, Item 6: repetition index, continuity index and repetition count, decimal, with
    /// the three answers that pass them up. The repeat has an end user address, the stored one none.
    #[test]
    fn the_three_numbers() {
        let input = b"\
B\t743a800012000520016f
B\t742f800013000577e0016f
B\t742f800013000577e00170
B
B\t73f08000120005a00700000010038000
B\t742f800013000677e00170
B\t742f800013000777e00170
D\t0005
B\t7a2f
";
        assert_eq!(
            output_for(input),
            "\
1 STORED 0005 B 0 10 3 1
2 REPEAT 0005 B 0 15 2 7
3 CONFLICT 0005 B 0 - - -
4 LINE - - - - - -
5 COMPLETE 0005 H 0 0 15 5
6 STORED 0006 B 0 15 2 7
7 FULL 0007 B 0 - - -
8 DROPPED 0005 - - - - -
9 KIND - - - - - -
T 3 1 3 1 1
"
        );
    }

    /// 16,432 characters are the longest group; one more is LINE and the whole line is swallowed.
    #[test]
    fn longest_line() {
        let mut fields = Fields::of_segment(0xABCD, Part::Body, 0, false, &[7; 8_189]);
        fields.extension = Some([0, 0]);
        let access = fields.user_access.as_mut().unwrap();
        access.indicator = 15;
        access.address = vec![0; 13];
        let line = hex('G', &fields.whole());
        assert_eq!(line.len(), 16_432);
        assert_eq!(output_for(&line), "1 STORED abcd B 0 0 0 0\nT 1 0 0 0 0\n");

        assert_eq!(answer(&hex('B', &vec![0x40; 8_215])), "LENGTH");
        for length in [16_433, 16_434, 100_000] {
            let mut long = vec![b'0'; length];
            long[..2].copy_from_slice(b"G\t");
            long.extend(b"\nG\t00");
            assert_eq!(
                output_for(&long),
                "1 LINE - - - - - -\n2 LENGTH - - - - - -\nT 0 0 1 0 0\n"
            );
        }
    }

    /// How the input arrives makes no difference.
    #[test]
    fn input_in_small_parts() {
        let input = b"G\t00\n\nD\t0001\nB\t7500\nG\t0";
        let mut output = Vec::new();
        run(BufReader::with_capacity(3, &input[..]), &mut output).unwrap();
        assert_eq!(String::from_utf8(output).unwrap(), output_for(input));
    }

    #[test]
    fn two_slots_and_the_body_limit() {
        let group = |transport, number, bytes: &[u8]| {
            hex(
                'B',
                &Fields::of_segment(transport, Part::Body, number, true, bytes).unchecked(),
            )
        };
        let lines = [
            group(1, 767, &[0; 16]),
            group(2, 767, &[0; 17]),
            group(2, 0, &[0; 1]),
            group(3, 0, &[0; 1]),
        ];
        assert_eq!(
            output_for(&lines.join(&b'\n')),
            "1 STORED 0001 B 767 0 0 0\n2 CONFLICT 0002 B 767 - - -\n3 STORED 0002 B 0 0 0 0\n\
             4 FULL 0003 B 0 - - -\nT 2 0 2 0 0\n"
        );
    }
}
