//! Frames that are read or refused, in the order of 11 to 14.

use second::answer::Refusal;
use second::wire::{read, Frame, Header};

use crate::{each, last};

const LENGTHS: [usize; 18] = [12, 12, 12, 16, 12, 16, 28, 12, 12, 16, 28, 32, 28, 16, 12, 16, 16, 16];

/// An opcode, then zeros.
fn zeros(opcode: u8, length: usize) -> Vec<u8> {
    let mut frame = vec![0; length];
    if let Some(first) = frame.first_mut() {
        *first = opcode;
    }
    frame
}

#[test]
fn every_opcode_is_read_or_refused() {
    for opcode in 0..=u8::MAX {
        for length in 0..12 {
            assert_eq!(read(&zeros(opcode, length)), Err(Refusal::ShortFrame), "opcode {opcode}");
        }
        let Some(&needed) = LENGTHS.get(usize::from(opcode)) else {
            for length in 12..40 {
                assert_eq!(read(&zeros(opcode, length)), Err(Refusal::UnknownOpcode), "opcode {opcode}");
            }
            continue;
        };
        for length in 12..needed {
            assert_eq!(read(&zeros(opcode, length)), Err(Refusal::ShortFrame), "opcode {opcode}");
        }
        let header = Header { opcode, ..Header::default() };
        let frame = Frame { header, header_length: needed, payload_length: 0 };
        assert_eq!(read(&zeros(opcode, needed)), Ok(frame), "opcode {opcode}");
    }
}

#[test]
fn the_rest_of_every_opcode() {
    for (opcode, &needed) in LENGTHS.iter().enumerate() {
        let bare = opcode == 12 || opcode == 17;
        for rest in 1..=9 {
            let answer = read(&zeros(opcode as u8, needed + rest)).map(|frame| frame.payload_length);
            let expected = if rest % 4 == 0 && !bare { Ok(rest) } else { Err(Refusal::BadRest) };
            assert_eq!(answer, expected, "opcode {opcode}, rest {rest}");
        }
        for pad in 1..=3u8 {
            let mut frame = zeros(opcode as u8, needed);
            frame[1] = pad << 4;
            assert_eq!(read(&frame), Err(Refusal::BadRest), "opcode {opcode}, pad {pad}, no rest");
            frame.extend([0; 4]);
            let answer = read(&frame).map(|frame| frame.payload_length);
            let expected = if bare { Err(Refusal::BadRest) } else { Ok(4 - usize::from(pad)) };
            assert_eq!(answer, expected, "opcode {opcode}, pad {pad}");
        }
    }
}

#[test]
fn refusals_come_in_order() {
    each(
        "",
        &[
            ("read 12", "refused 11"),                       // short and of no opcode
            ("read 120f000000000000000000", "refused 11"),   // 11 bytes
            ("read 120f00000000000000000000", "refused 12"), // no opcode and a version
            ("read ff8000000000000000000000", "refused 12"),
            ("read 110f00000000000000000000", "refused 11"), // a version, but the AETH is missing
            ("read 110f0000000000000000000000000000", "refused 13"), // a version
            ("read 11010000000000000000000000000000ff", "refused 13"), // a version and a rest
            ("read 11000000000000000000000000000000ff", "refused 14"), // an odd rest
            ("read 110000000000000000000000000000000000", "refused 14"),
            ("read 1100000000000000000000000000000000000000", "refused 14"), // a rest where none may be
            ("read 11000000000000000000000000000000", "frame 17 0 0 0 0 0 0 0 0 0 0 16 0"),
            ("read 11100000000000000000000000000000", "refused 14"), // a pad and no rest
        ],
    );
}

#[test]
fn every_version_but_0_is_refused() {
    for version in 1..16u8 {
        let mut frame = zeros(4, 12);
        frame[1] = version;
        assert_eq!(read(&frame), Err(Refusal::WrongVersion), "version {version}");
    }
}

/// Solicited event, migration, AckReq and reserved bits may be anything.
#[test]
fn ignored_bits_are_ignored() {
    let expected = "frame 4 3 258 11259375 1193046 0 0 0 0 0 0 12 1";
    for flags in ["30", "b0", "70", "f0"] {
        for reserved in ["00", "ff", "01"] {
            for request in ["00", "80", "7f", "ff"] {
                let line = format!("read 04{flags}0102{reserved}abcdef{request}12345611223300");
                assert_eq!(last(&line), expected, "{line}");
            }
        }
    }
}

#[test]
fn write_lines_at_their_borders() {
    let zeros = "00".repeat(20);
    each(
        "",
        &[
            ("write 4 3 65535 16777215 16777215 18446744073709551615 4294967295 4294967295 4294967295 255 16777215",
                &format!("header 12 04b0ffff00ffffff80ffffff{zeros}")),
            ("write 4 4 0 0 0 0 0 0 0 0 0", "refused 3"),
            ("write 4 256 0 0 0 0 0 0 0 0 0", "refused 3"),
            ("write 4 0 65536 0 0 0 0 0 0 0 0", "refused 3"),
            ("write 4 0 0 16777216 0 0 0 0 0 0 0", "refused 3"),
            ("write 4 0 0 0 16777216 0 0 0 0 0 0", "refused 3"),
            ("write 4 0 0 0 4294967296 0 0 0 0 0 0", "refused 3"),
            ("write 4 0 0 0 0 0 4294967296 0 0 0 0", "refused 3"),
            ("write 4 0 0 0 0 0 0 4294967296 0 0 0", "refused 3"),
            ("write 4 0 0 0 0 0 0 0 4294967296 0 0", "refused 3"),
            ("write 4 0 0 0 0 0 0 0 0 256 0", "refused 3"),
            ("write 4 0 0 0 0 0 0 0 0 0 16777216", "refused 3"),
            ("write 17 0 0 0 0 0 0 0 0 0 0", &format!("header 16 118000000000000080000000{zeros}")),
            ("write 18 0 0 0 0 0 0 0 0 0 0", "refused 12"),
            ("write 255 0 0 0 0 0 0 0 0 0 0", "refused 12"),
            ("write 256 0 0 0 0 0 0 0 0 0 0", "refused 3"),
            ("write 18 4 0 0 0 0 0 0 0 0 0", "refused 3"),
            ("write 18 0 0 0 0 0 0 0 0 0 16777216", "refused 3"),
        ],
    );
}
