//! The lines of the text program.

use reference::program::{program, run};
use std::io::BufReader;

const MAKE: &str = "make 2 2 2 4 0 1 0 0 0 0 1 0 0 0\n";

fn answers(input: &[u8]) -> String {
    String::from_utf8(program(input)).unwrap()
}

/// The answer to one line after the document's make.
fn answer(line: &str) -> String {
    let output = answers(format!("{MAKE}{line}\n").as_bytes());
    output
        .strip_prefix("0\n")
        .expect("make succeeds")
        .to_string()
}

fn refused_line(line: &str) {
    assert_eq!(answer(line), "?\n", "{line:?}");
}

#[test]
fn every_word() {
    let input = format!(
        "{MAKE}put 3 100 20\nput 6 50 50\nshow 3\nshow 4\nspan 1 9\nspan 4 5\nspan 9 1\n\
         seek 1 9 1\nseek 1 9 81\ncancel 3\ncancel 3\nshow 3\nblocks\n"
    );
    let output = "0\n0\n0\n0 100 20\n9\n0 2\n3 100 20\n6 50 50\n0 0\n10\n\
         0 3 100 20\n12\n0\n9\n9\n\
         0\n0 1 0 0 1 0\n1 2 0 0 2 0 6\n2 1 0 6 1 6\n3 3 0 0 1 0\n";
    assert_eq!(answers(input.as_bytes()), output);
}

#[test]
fn empty_blocks_are_a_dash() {
    assert_eq!(
        answer("blocks"),
        "0\n0 1 0 0 1 0\n1 2 0 0 1 0\n2 3 0 0 1 0\n3 -\n"
    );
}

#[test]
fn leading_zeros_count_for_nothing() {
    let zeros = "0".repeat(2000);
    let input = format!(
        "make 02 002 0002 {zeros}4 00 1 0 0 0 0 {zeros}1 0 0 0\nput {zeros}7 0100 {zeros}\n\
         show 007\nshow {zeros}7\nseek 00000000001 00000000000000000009 0\n"
    );
    assert_eq!(
        answers(input.as_bytes()),
        "0\n0\n0 100 0\n0 100 0\n0 7 100 0\n"
    );
}

#[test]
fn fields_end_at_4294967295() {
    assert_eq!(answer("put 3 4294967295 4294967295"), "0\n");
    assert_eq!(answer("put 3 0004294967295 0"), "0\n");
    assert_eq!(answer("put 4294967295 1 1"), "5\n");
    assert_eq!(answer("seek 1 2 4294967295"), "12\n");
    for field in [
        "4294967296",
        "04294967296",
        "4294967300",
        "4300000000",
        "9999999999",
    ] {
        refused_line(&format!("put {field} 1 1"));
        refused_line(&format!("put 3 {field} 1"));
        refused_line(&format!("put 3 1 {field}"));
        refused_line(&format!("seek 1 9 {field}"));
        refused_line(&format!("show {field}"));
    }
    // Numbers that fall below 2^32 when only their last 32 or 64 bits are kept.
    for field in ["4294967299", "18446744073709551616", "18446744073709551619"] {
        refused_line(&format!("show {field}"));
    }
    refused_line(&format!("show {}", "9".repeat(5000)));
    refused_line(&format!("show 1{}", "0".repeat(5000)));
}

/// `?` whatever else is wrong, also before a make.
#[test]
fn large_fields_before_a_make() {
    let input = "put 4294967296 1 1\nput 0 0 4294967296\nspan 9 4294967296\n\
         make 4294967296 2 2 4 0 1 0 0 0 0 1 0 0 0\nmake 1 2 2 4 4294967296 1 0 0 0 0 1 0 0 0\n";
    assert_eq!(answers(input.as_bytes()), "?\n?\n?\n?\n?\n");
}

#[test]
fn one_blank_is_one_space() {
    for line in [
        "show  3",
        "show\t3",
        " show 3",
        "show 3 ",
        "show 3\r",
        "show 3\t",
        "\tshow 3",
        "show 3\0",
        "show\0 3",
        "show\u{a0}3",
        "show\u{b}3",
        "show\u{c}3",
        "show,3",
        "show3",
        "put 3  1 1",
        "put 3 1 1 ",
        "put  3 1 1",
        "put 3\t1 1",
        "blocks ",
        " blocks",
        "blocks\r",
        "blocks\t",
        "blocks\0",
        "  ",
        " ",
    ] {
        refused_line(line);
    }
}

#[test]
fn other_words_and_fields() {
    for line in [
        "",
        "?",
        "0",
        "3",
        "show",
        "show ",
        "show 3 4",
        "show x",
        "show 3x",
        "show x3",
        "show +3",
        "show -3",
        "show 3.0",
        "show 0x3",
        "show 3e1",
        "show 1_0",
        "show 1,000",
        "SHOW 3",
        "Show 3",
        "shows 3",
        "sho 3",
        "lookup 3",
        "check",
        "quit",
        "cancel",
        "cancel 3 4",
        "put",
        "put 3",
        "put 3 1",
        "put 3 1 1 1",
        "put -3 1 1",
        "span",
        "span 1",
        "span 1 2 3",
        "seek 1",
        "seek 1 2",
        "seek 1 2 3 4",
        "blocks 0",
        "blocks x",
        "Blocks",
        "block",
        "blockss",
        "make",
        "make 2 2 2 4",
        "make 2 2 2 4 0 1 0 0 0 0 1 0 0",
        "make 2 2 2 4 0 1 0 0 0 0 1 0 0 0 0",
        "make 2 2 2 4 0 1 0 0 0 0 1 0 0 x",
        "Make 2 2 2 4 0 1 0 0 0 0 1 0 0 0",
        "# blocks",
        "show ٣",
        "show ３",
        "ѕhow 3",
    ] {
        refused_line(line);
    }
}

/// Bytes that are no text at all.
#[test]
fn any_bytes() {
    for byte in 0..=255u8 {
        let line = [b"show 3".as_slice(), &[byte], b"\n"].concat();
        let expected = match byte {
            b'0'..=b'9' => "4\n",
            b'\n' => "4\n?\n",
            _ => "?\n",
        };
        assert_eq!(answers(&line), expected, "{byte}");
    }
    for byte in (0..=255u8).filter(|&byte| byte != b'\n') {
        assert_eq!(answers(&[byte]), "?\n", "{byte}");
    }
    assert_eq!(answers(&[0xff; 100]), "?\n");
}

#[test]
fn lines_and_their_ends() {
    assert_eq!(answers(b""), "");
    assert_eq!(answers(b"\n"), "?\n");
    assert_eq!(answers(b"\n\n"), "?\n?\n");
    assert_eq!(answers(b"blocks"), "4\n");
    assert_eq!(answers(b"blocks\n"), "4\n");
    assert_eq!(answers(b"blocks\n\n"), "4\n?\n");
    assert_eq!(answers(b"blocks\nblocks"), "4\n4\n");
    assert_eq!(answers(b"blocks\r\n"), "?\n");
    assert_eq!(answers(b"blocks\rblocks\n"), "?\n");
    assert_eq!(answers(b"blocks\n "), "4\n?\n");
}

#[test]
fn a_line_has_no_greatest_length() {
    let long = format!("{}\nblocks\n", "x".repeat(1_000_000));
    assert_eq!(answers(long.as_bytes()), "?\n4\n");
    let long = format!("{MAKE}show {}3\nblocks", "0".repeat(300_000));
    assert!(answers(long.as_bytes()).starts_with("0\n9\n0\n0 1 0 0 1 0\n"));
}

/// The input may come in pieces of any length.
#[test]
fn input_in_pieces() {
    let input = format!("{MAKE}put 3 100 20\nshow 3\n\nspan 1 9");
    for length in 1..20 {
        let mut output = Vec::new();
        run(
            BufReader::with_capacity(length, input.as_bytes()),
            &mut output,
        )
        .unwrap();
        assert_eq!(output, b"0\n0\n0 100 20\n?\n0 1\n3 100 20\n", "{length}");
    }
}

/// "Before a successful make the table has length 0, so calls give 4, and
/// `blocks` too."
#[test]
fn before_a_make() {
    let input = "put 3 1 1\nput 0 0 1\ncancel 3\ncancel 0\nshow 3\nspan 1 9\nspan 9 1\n\
         seek 1 9 0\nseek 0 0 0\nblocks\nmake 2 2 2 2 0 1 0 0 0 0 1 0 0 0\nblocks\n";
    assert_eq!(answers(input.as_bytes()), "4\n".repeat(10) + "2\n4\n");
}

#[test]
fn make_answers_1_and_2() {
    let p = 2_147_483_647u32;
    let with_seed = |place: usize, number: u32| {
        let mut fields: Vec<u32> = vec![2, 2, 2, 4, 0, 1, 0, 0, 0, 0, 1, 0, 0, 0];
        fields[4 + place] = number;
        let fields: Vec<String> = fields.iter().map(u32::to_string).collect();
        answers(format!("make {}\n", fields.join(" ")).as_bytes())
    };
    for place in 0..10 {
        assert_eq!(with_seed(place, p - 1), "0\n");
        assert_eq!(with_seed(place, p), "1\n");
        assert_eq!(with_seed(place, u32::MAX), "1\n");
    }
    let sizes = |sizes: &str, seed: &str| answers(format!("make {sizes} {seed}\n").as_bytes());
    let (good, bad) = ("0 1 0 0 0 0 1 0 0 0", "0 1 0 0 0 0 1 0 0 2147483647");
    for wrong in [
        "1 2 2 4",
        "65 2 2 4",
        "2 1 2 4",
        "2 33 2 4",
        "2 2 0 4",
        "2 2 65536 65535",
    ] {
        assert_eq!(sizes(wrong, good), "2\n", "{wrong}");
        assert_eq!(sizes(wrong, bad), "1\n", "{wrong}");
    }
    for blocks in ["0", "2", "65536", "4294967295"] {
        assert_eq!(sizes(&format!("2 2 2 {blocks}"), good), "2\n", "M {blocks}");
    }
    assert_eq!(sizes("2 2 2 3", good), "0\n");
}

/// "a table over 65,536 bytes whose sizes are allowed prints `?`".
#[test]
fn tables_over_the_buffer() {
    let (good, bad) = ("0 1 0 0 0 0 1 0 0 0", "0 1 0 0 0 0 1 0 0 2147483647");
    let ask =
        |sizes: &str, seed: &str| answers(format!("make {sizes} {seed}\nblocks\n").as_bytes());
    // 53 + 2046·32 = 65,525; 53 + 167·392 = 65,517.
    for fits in ["2 2 2 2046", "2 32 2 167"] {
        assert!(ask(fits, good).starts_with("0\n0\n0 "), "{fits}");
        assert_eq!(ask(fits, bad), "1\n4\n", "{fits}");
    }
    for over in ["2 2 2 2047", "2 32 2 168", "64 32 65535 65535"] {
        assert_eq!(ask(over, good), "?\n4\n", "{over}");
        assert_eq!(ask(over, bad), "?\n4\n", "{over}");
    }
    // Sizes that are not allowed are asked about, however long the table would be.
    for wrong in ["1 2 2 2047", "2 33 2 168", "2 2 2 65536"] {
        assert_eq!(ask(wrong, good), "2\n4\n", "{wrong}");
        assert_eq!(ask(wrong, bad), "1\n4\n", "{wrong}");
    }
}

/// "A failed make keeps the older table"; so does a line that makes no call.
#[test]
fn which_make_counts() {
    let put = "put 3 100 20\n";
    for failed in [
        ("make 2 2 2 2 0 1 0 0 0 0 1 0 0 0\n", "2\n"),
        ("make 2 2 2 4 0 1 0 0 0 0 1 0 0 2147483647\n", "1\n"),
        ("make 2 2 2 2047 0 1 0 0 0 0 1 0 0 0\n", "?\n"),
        ("make 2 2 2 4\n", "?\n"),
    ] {
        let input = format!("{MAKE}{put}{}show 3\n", failed.0);
        assert_eq!(
            answers(input.as_bytes()),
            format!("0\n0\n{}0 100 20\n", failed.1)
        );
    }
    let input =
        format!("{MAKE}{put}{MAKE}show 3\nspan 1 9\nmake 2 3 2 3 0 1 0 0 0 0 1 0 0 0\nblocks\n");
    let blocks = "0\n0 3 0 0 1 0\n1 1 0 0 1 0\n2 2 0 0 1 0\n";
    assert_eq!(
        answers(input.as_bytes()),
        format!("0\n0\n0\n9\n0 0\n0\n{blocks}")
    );
}

/// As many orders as the buffer can hold, all of them in one span.
#[test]
fn a_span_of_a_full_table() {
    // h = 1: every key has level 1. γ = 64 and N = 6,000 give β = 5, so four of the
    // 167 blocks hold only the front, the others 32 nodes each, one the front's.
    let most = 163 * 32 - 1;
    let mut input = "make 64 32 6000 167 1 0 0 0 0 1 0 0 0 0\n".to_string();
    let mut output = "0\n".to_string();
    for key in 1..=most {
        input += &format!("put {key} {} {key}\n", key + 1);
        output += "0\n";
    }
    input += &format!("put {} 1 1\nspan 1 2147483646\n", most + 1);
    output += &format!("8\n0 {most}\n");
    for key in 1..=most {
        output += &format!("{key} {} {key}\n", key + 1);
    }
    assert!(answers(input.as_bytes()) == output);
}
