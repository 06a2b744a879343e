//! Headers as literal bytes, by the layout, written and read.

use second::answer::Refusal;
use second::trace::answers;
use second::wire::{read, write, Frame, Header};

/// Bytes of the headers for opcodes 0 to 17.
const LENGTHS: [usize; 18] = [12, 12, 12, 16, 12, 16, 28, 12, 12, 16, 28, 32, 28, 16, 12, 16, 16, 16];

/// The header writes these bytes and zeros after them, and those bytes read back as it.
fn written_as(header: Header, parts: &[&[u8]]) {
    let bytes: Vec<u8> = parts.concat();
    let written = write(&header).expect("in range");
    assert_eq!(written.length, bytes.len());
    assert_eq!(written.bytes[..bytes.len()], bytes);
    assert!(written.bytes[bytes.len()..].iter().all(|&byte| byte == 0));
    let rest = if header.pad == 0 { &[][..] } else { &[1, 2, 3, 4] };
    let frame = read(&[&bytes, rest].concat()).expect("a frame");
    let payload_length = rest.len() - usize::from(header.pad);
    assert_eq!(frame, Frame { header, header_length: bytes.len(), payload_length });
}

#[test]
fn send_only() {
    let header = Header { opcode: 4, pad: 3, pkey: 0xffff, far: 0x123, psn: 0xabcdef, ..Header::default() };
    let bth: [&[u8]; 8] = [
        &[0x04],             // opcode
        &[0xb0],             // solicited event 1, migration 0, pad 3, version 0
        &[0xff, 0xff],       // P_Key
        &[0x00],             // reserved
        &[0x00, 0x01, 0x23], // far pair
        &[0x80],             // AckReq 1, reserved
        &[0xab, 0xcd, 0xef], // PSN
        &[],
    ];
    written_as(header, &bth);
}

#[test]
fn send_last_with_immediate() {
    let header =
        Header { opcode: 3, pad: 2, pkey: 1, far: 2, psn: 3, immediate: 0xfedcba98, ..Header::default() };
    let parts: [&[u8]; 4] = [
        &[0x03, 0xa0, 0x00, 0x01], // opcode; solicited event, pad 2; P_Key
        &[0x00, 0x00, 0x00, 0x02], // reserved, far pair
        &[0x80, 0x00, 0x00, 0x03], // AckReq, PSN
        &[0xfe, 0xdc, 0xba, 0x98], // immediate
    ];
    written_as(header, &parts);
}

#[test]
fn write_first() {
    let header = Header {
        opcode: 6,
        pkey: 0x8001,
        far: 0xffffff,
        address: 0x0123456789abcdef,
        key: 0xdeadbeef,
        length: 601,
        ..Header::default()
    };
    let parts: [&[u8]; 6] = [
        &[0x06, 0x80, 0x80, 0x01], // opcode; solicited event, pad 0; P_Key
        &[0x00, 0xff, 0xff, 0xff], // reserved, far pair
        &[0x80, 0x00, 0x00, 0x00], // AckReq, PSN
        &[0x01, 0x23, 0x45, 0x67, 0x89, 0xab, 0xcd, 0xef], // RETH: address
        &[0xde, 0xad, 0xbe, 0xef], // key
        &[0x00, 0x00, 0x02, 0x59], // length 601
    ];
    written_as(header, &parts);
}

#[test]
fn write_only_with_immediate() {
    let header = Header {
        opcode: 11,
        pad: 1,
        pkey: 0x1234,
        far: 1,
        psn: 0xffffff,
        address: u64::MAX,
        key: 1,
        length: 7,
        immediate: 0x0a0b0c0d,
        ..Header::default()
    };
    let parts: [&[u8]; 7] = [
        &[0x0b, 0x90, 0x12, 0x34], // opcode; solicited event, pad 1; P_Key
        &[0x00, 0x00, 0x00, 0x01], // reserved, far pair
        &[0x80, 0xff, 0xff, 0xff], // AckReq, PSN
        &[0xff; 8],                // RETH: address
        &[0x00, 0x00, 0x00, 0x01], // key
        &[0x00, 0x00, 0x00, 0x07], // length
        &[0x0a, 0x0b, 0x0c, 0x0d], // immediate, after the RETH
    ];
    written_as(header, &parts);
}

#[test]
fn read_request() {
    let header =
        Header { opcode: 12, far: 2, psn: 11, address: 4096, key: 5, length: 1000, ..Header::default() };
    let parts: [&[u8]; 6] = [
        &[0x0c, 0x80, 0x00, 0x00], // opcode; solicited event, pad 0; P_Key
        &[0x00, 0x00, 0x00, 0x02], // reserved, far pair
        &[0x80, 0x00, 0x00, 0x0b], // AckReq, PSN
        &[0x00, 0x00, 0x00, 0x00, 0x00, 0x00, 0x10, 0x00], // RETH: address
        &[0x00, 0x00, 0x00, 0x05], // key
        &[0x00, 0x00, 0x03, 0xe8], // length 1000
    ];
    written_as(header, &parts);
}

#[test]
fn read_response_first() {
    let header =
        Header { opcode: 13, pkey: 0xffff, far: 77, psn: 11, syndrome: 31, msn: 258, ..Header::default() };
    let parts: [&[u8]; 4] = [
        &[0x0d, 0x80, 0xff, 0xff], // opcode; solicited event, pad 0; P_Key
        &[0x00, 0x00, 0x00, 0x4d], // reserved, far pair
        &[0x80, 0x00, 0x00, 0x0b], // AckReq, PSN
        &[0x1f, 0x00, 0x01, 0x02], // AETH: syndrome, MSN
    ];
    written_as(header, &parts);
}

#[test]
fn acknowledge() {
    let header = Header {
        opcode: 17,
        pkey: 0xffff,
        far: 77,
        psn: 15,
        syndrome: 0x60,
        msn: 0xffffff,
        ..Header::default()
    };
    let parts: [&[u8]; 4] = [
        &[0x11, 0x80, 0xff, 0xff], // opcode; solicited event, pad 0; P_Key
        &[0x00, 0x00, 0x00, 0x4d], // reserved, far pair
        &[0x80, 0x00, 0x00, 0x0f], // AckReq, PSN
        &[0x60, 0xff, 0xff, 0xff], // AETH: NAK 0, MSN
    ];
    written_as(header, &parts);
}

#[test]
fn write_lines() {
    let ask = |line: &str| answers(line).trim_end().to_string();
    let read_request =
        "0c8000000000000280 00000b 0000000000001000 00000005 000003e8 00000000".replace(' ', "");
    assert_eq!(ask("write 12 0 0 2 11 4096 5 1000 9 9 9"), format!("header 28 {read_request}"));
    let zeros = "00".repeat(16);
    assert_eq!(
        ask("write 17 0 65535 77 15 9 9 9 9 96 16777215"),
        format!("header 16 1180ffff0000004d8000000f60ffffff{zeros}")
    );
}

/// All fields that the opcode has, and 0 for those it lacks, by a list of its own.
fn kept(header: Header) -> Header {
    let reth = [6, 10, 11, 12].contains(&header.opcode);
    let immediate = [3, 5, 9, 11].contains(&header.opcode);
    let aeth = [13, 15, 16, 17].contains(&header.opcode);
    let mut kept = header;
    if !reth {
        (kept.address, kept.key, kept.length) = (0, 0, 0);
    }
    if !immediate {
        kept.immediate = 0;
    }
    if !aeth {
        (kept.syndrome, kept.msn) = (0, 0);
    }
    kept
}

/// A header with every bit of every field set that may be.
fn full(opcode: u8) -> Header {
    Header {
        opcode,
        pad: 3,
        pkey: u16::MAX,
        far: 0xffffff,
        psn: 0xffffff,
        address: u64::MAX,
        key: u32::MAX,
        length: u32::MAX,
        immediate: u32::MAX,
        syndrome: u8::MAX,
        msn: 0xffffff,
    }
}

#[test]
fn every_opcode_is_written_or_refused() {
    for opcode in 0..=u8::MAX {
        match LENGTHS.get(usize::from(opcode)) {
            Some(&length) => {
                let written = write(&full(opcode)).expect("a known opcode");
                assert_eq!(written.length, length, "opcode {opcode}");
                assert!(written.bytes[length..].iter().all(|&byte| byte == 0), "opcode {opcode}");
            }
            None => {
                assert_eq!(write(&full(opcode)), Err(Refusal::UnknownOpcode), "opcode {opcode}");
                let wide = Header { msn: 1 << 24, ..full(opcode) };
                assert_eq!(write(&wide), Err(Refusal::OutOfRange), "opcode {opcode}");
            }
        }
    }
}

/// Numbers without any order (SplitMix64).
fn scattered(seed: &mut u64) -> u64 {
    *seed = seed.wrapping_add(0x9e3779b97f4a7c15);
    let one = (*seed ^ *seed >> 30).wrapping_mul(0xbf58476d1ce4e5b9);
    let two = (one ^ one >> 27).wrapping_mul(0x94d049bb133111eb);
    two ^ two >> 31
}

#[test]
fn what_is_written_reads_back() {
    let mut seed = 1;
    for step in 0..20_000 {
        let mut next = || scattered(&mut seed);
        let header = Header {
            opcode: (step % 18) as u8,
            pad: next() as u8 % 4,
            pkey: next() as u16,
            far: next() as u32 >> 8,
            psn: next() as u32 >> 8,
            address: next(),
            key: next() as u32,
            length: next() as u32,
            immediate: next() as u32,
            syndrome: next() as u8,
            msn: next() as u32 >> 8,
        };
        let bare = [12, 17].contains(&header.opcode);
        let header = if bare { Header { pad: 0, ..header } } else { header };
        let rest = if bare { 0 } else { 4 * (1 + next() as usize % 9) };
        let written = write(&header).expect("in range");
        let frame = [&written.bytes[..written.length], &vec![0xee; rest]].concat();
        let expected = Frame {
            header: kept(header),
            header_length: written.length,
            payload_length: rest - usize::from(header.pad),
        };
        assert_eq!(read(&frame), Ok(expected));
        assert_eq!(write(&kept(header)), Ok(written));
    }
}

#[test]
fn what_is_read_writes_back() {
    let mut seed = 2;
    for step in 0..20_000 {
        let opcode = (step % 18) as u8;
        let length = LENGTHS[usize::from(opcode)];
        let mut bytes: Vec<u8> = (0..length).map(|_| scattered(&mut seed) as u8).collect();
        let pad = if [12, 17].contains(&opcode) { 0 } else { bytes[1] & 0x30 };
        bytes[0] = opcode;
        bytes[1] = 0x80 | pad; // solicited event, no migration, version 0
        bytes[4] = 0; // reserved
        bytes[8] = 0x80; // AckReq, reserved
        let rest = if pad == 0 { 0 } else { 4 };
        let frame = read(&[&bytes[..], &vec![0; rest]].concat()).expect("a frame");
        let written = write(&frame.header).expect("in range");
        assert_eq!(written.bytes[..written.length], bytes);
    }
}
