//! The layout program, which prints layout 5, run on inputs good and bad: the whole output against the independent implementation's.
use harness::plain::layout;
use harness::program::{output, output_of_pieces};
use harness::random::Random;

fn same(input: &[u8]) {
    assert_eq!(
        String::from_utf8(output("layout", input)).expect("the output is text"),
        layout::output(input),
        "for the input {:?}",
        String::from_utf8_lossy(&input[..input.len().min(120)])
    );
}

fn bad(input: &[u8]) {
    assert_eq!(
        layout::output(input),
        "bad\n",
        "a case of this test is not bad: {:?}",
        String::from_utf8_lossy(input)
    );
    same(input);
}

#[test]
fn the_example_of_the_paper() {
    let text = "0 0 1 2 3 P\n1 5 6 7 P 4\n2 10 11 P 8 9\n3 15 P 12 13 14\n4 P 16 17 18 19\n";
    assert_eq!(output("layout", b"5 5\n"), text.as_bytes());
    assert_eq!(layout::output(b"5 5\n"), text);
}

#[test]
fn good_inputs() {
    let few = 1..=24u64;
    let sizes =
        few.chain([31, 64, 99, 100, 101, 255, 256, 511, 512, 999, 1000, 1001, 1022, 1023, 1024]);
    for stripes in sizes {
        for cards in 3..=8u64 {
            same(format!("{cards} {stripes}\n").as_bytes());
        }
    }
}

#[test]
fn beyond_the_limits() {
    for cards in [0, 1, 2, 9, 10, 11, 33, 255, 256, 258, 259, 65541, 4294967301u64, u64::MAX] {
        for stripes in [1, 5, 1024] {
            bad(format!("{cards} {stripes}\n").as_bytes());
        }
    }
    for stripes in [0, 1025, 1026, 2000, 9999, 10000, 65536, 65537, 66560, 4294967297u64, u64::MAX]
    {
        for cards in [3, 5, 8] {
            bad(format!("{cards} {stripes}\n").as_bytes());
        }
    }
    // 2^64 and 2^128 above numbers that would do
    bad(b"18446744073709551621 5\n");
    bad(b"5 18446744073709551621\n");
    bad(b"340282366920938463463374607431768211461 5\n");
}

#[test]
fn text_of_any_other_kind() {
    let cases: &[&[u8]] = &[
        // nothing, or too little
        b"",
        b"\n",
        b" ",
        b" \n",
        b"5",
        b"5\n",
        b"5 ",
        b"5 \n",
        b" 5",
        b" 5\n",
        b"5 5",
        b"55\n",
        b"\n5 5\n",
        // something after
        b"5 5\n\n",
        b"5 5\n ",
        b"5 5\n5",
        b"5 5\n5 5\n",
        b"5 5\n\0",
        b"5 5 \n",
        b"5 5 5\n",
        b"5 5 4\n",
        b"5 5x\n",
        b"5 5\n\x1a",
        // other spaces and line ends
        b"5  5\n",
        b" 5 5\n",
        b"5\t5\n",
        b"5 5\r\n",
        b"5 5\r",
        b"5\n5\n",
        b"5 5\x0b",
        b"5 5\x0c",
        b"5\xa05\n",
        b"5\xc2\xa05\n",
        b"5,5\n",
        // zeros in front
        b"05 5\n",
        b"5 05\n",
        b"005 5\n",
        b"5 005\n",
        b"5 00\n",
        b"00 5\n",
        b"5 0005\n",
        b"5 01024\n",
        b"0 0\n",
        b"5 -0\n",
        // signs and other notations
        b"+5 5\n",
        b"5 +5\n",
        b"-5 5\n",
        b"5 -5\n",
        b"0x5 5\n",
        b"5 0x5\n",
        b"5.0 5\n",
        b"5 5.0\n",
        b"5e0 5\n",
        b"5 1e1\n",
        b"5 1_0\n",
        b"5 1,024\n",
        b"V V\n",
        b"five five\n",
        b"5 P\n",
        b"P 5\n",
        b"bad\n",
        b"\"5 5\"\n",
        b"'5' 5\n",
        // bytes beside the digits, and bytes that are no text
        b"/ 5\n",
        b": 5\n",
        b"5 /\n",
        b"5 :\n",
        b"5 1/\n",
        b"5 1:\n",
        b"5 \xb5\n",
        b"\xff\xfe5 5\n",
        b"\xef\xbb\xbf5 5\n",
        b"\0\0\0\0",
        b"5\0 5\n",
        b"5 \x005\n",
        b"5\x005\n",
        b"\xd9\xa5 5\n",
        b"5 \xd9\xa5\n",
        b"\xff\xff\xff\xff\xff\xff\xff\n",
    ];
    for case in cases {
        bad(case);
    }
}

#[test]
fn long_inputs() {
    bad(format!("{} 5\n", "5".repeat(100)).as_bytes());
    bad(format!("5 {}\n", "1".repeat(100)).as_bytes());
    bad(format!("{}5 5\n", "0".repeat(100)).as_bytes());
    bad(format!("5 {}5\n", "0".repeat(100)).as_bytes());
    bad(format!("5 5\n{}", "\n".repeat(100)).as_bytes());
    for length in [7, 8, 9, 15, 16, 17, 31, 32, 33, 4095, 4096, 4097, 65536, 1_000_000] {
        bad(&vec![b'5'; length]);
        bad(&[b"5 5\n".to_vec(), vec![b' '; length]].concat());
    }
}

#[test]
fn inputs_beside_good_ones() {
    // one byte of a good input changed, taken away or put in
    let mut scatter = Random::new(2);
    for _ in 0..150 {
        let mut input =
            format!("{} {}\n", 3 + scatter.below(6), 1 + scatter.below(1024)).into_bytes();
        let at = scatter.below(input.len() as u64) as usize;
        let bytes = b"0123456789 \n\t+-P\0\xff";
        let byte = bytes[scatter.below(bytes.len() as u64) as usize];
        match scatter.below(3) {
            0 => input[at] = byte,
            1 => drop(input.remove(at)),
            _ => input.insert(at, byte),
        }
        same(&input);
    }
}

#[test]
fn input_in_pieces() {
    for input in ["5 5\n", "8 1024\n", "3 1\n", "8 1024\n\n", "5 5"] {
        let pieces: Vec<&[u8]> = input.as_bytes().chunks(1).collect();
        assert_eq!(
            String::from_utf8(output_of_pieces("layout", &pieces)).unwrap(),
            layout::output(input.as_bytes())
        );
    }
}
