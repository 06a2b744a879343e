//! Headers as another program reads them: the fields that Wireshark's dissector finds in the same frames.

use crate::last;

const VECTORS: &str = include_str!("wireshark.txt");

#[test]
fn wireshark_finds_the_same_fields() {
    let mut seen = [0; 18];
    for line in VECTORS.lines().filter(|line| !line.starts_with('#')) {
        let (hex, fields) = line.split_once(' ').expect("a frame and its fields");
        let written = last(&format!("read {hex}\n"));
        assert!(written.starts_with(&format!("frame {fields} ")), "{line}\n{written}");
        let opcode: usize = fields.split(' ').next().unwrap().parse().unwrap();
        seen[opcode] += 1;
    }
    assert_eq!(seen, [3; 18]);
}
