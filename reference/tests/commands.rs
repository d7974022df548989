//! The program's commands as they are run.

mod program;

use reference::bench::input;

use program::run;

const P1: [u8; 9] = [1, 3, 3, 0, 0, 2, 2, 1, 1];
const P5: [u8; 13] = [1, 4, 5, 0, 0, 2, 2, 2, 3, 1, 1, 1, 2];

fn assert_prints(job: u8, repeats: u32, book: &[u8], expected: &str) {
    let output = run(&["bench"], &input(job, repeats, book));
    assert!(output.status.success());
    assert_eq!(String::from_utf8(output.stdout).unwrap(), expected);
}

#[test]
fn bench_prints_the_last_result() {
    for repeats in [1, 2, 70_000] {
        assert_prints(b'D', repeats, &P1, "D accepted\n");
        // Link 0 has a length in every repeat, so its record has 3 bytes.
        assert_prints(b'E', repeats, &P1, "E 11\n");
        assert_prints(b'P', repeats, &P1, "P accepted 010\n");
        assert_prints(b'T', repeats, &P1, "P accepted 010\n");
        assert_prints(b'R', repeats, &P5, "R 12\n");
        assert_prints(b'S', repeats, &P5, "S 6\n");
        assert_prints(b'L', repeats, &P5, "L taken 0\n");
        assert_prints(b'U', repeats, &P5, "U 0 2 0\n");
        assert_prints(b'V', repeats, &P5, "V 0 0 -\n");
    }
}

#[test]
fn bench_collects_from_each_root_in_turn() {
    // P5 from nodes 0 to 3: 0 1 2 3 2 1 0, 1 0 2 3 2 0 1, 2 0 1 0 3 0 2 and
    // 3 0 1 2 1 0 3.
    for (repeats, sum) in [(1, 36), (2, 36), (3, 34), (4, 40), (5, 36), (70_003, 34)] {
        let expected = format!("B accepted 7 3 {sum}\n");
        assert_prints(b'B', repeats, &P5, &expected);
    }
    // A tree is collected too.
    assert_prints(b'B', 4, &[1, 2, 1, 0, 0], "B accepted 3 1 4\n");
}

#[test]
fn bench_prints_the_route_length_of_the_last_repeat() {
    // The route after the cut of link 2 has links 0 and 1, of 10 and 20 metres.
    // Link 0 has 1 metre in every other repeat.
    let book = [1, 3, 3, 0, 4, 10, 0, 6, 2, 20, 0, 1, 1];
    for (repeats, expected) in [(1, "V 0 0 30\n"), (2, "V 0 0 21\n"), (701, "V 0 0 30\n")] {
        assert_prints(b'V', repeats, &book, expected);
    }
    // Link 0 is measured in every other repeat only.
    let book = [1, 3, 3, 0, 0, 6, 2, 20, 0, 1, 1];
    assert_prints(b'V', 3, &book, "V 0 0 -\n");
    assert_prints(b'V', 4, &book, "V 0 0 21\n");
}

#[test]
fn bench_prints_refusals() {
    assert_prints(b'P', 3, &[1, 2, 1, 0, 0], "P refused 21 0 0\n");
    assert_prints(b'P', 3, &[1, 2, 0, 0], "P refused 20 1\n");
    assert_prints(b'T', 3, &[1, 2, 0, 0], "P refused 20 1\n");
    assert_prints(b'R', 3, &[1, 2, 0, 0], "R refused 20 1\n");
    assert_prints(b'S', 3, &[1, 2, 0, 0], "S refused 20 1\n");
    assert_prints(b'L', 3, &[1, 2, 1, 0, 0], "L refused 21 0\n");
    assert_prints(b'U', 3, &[1, 2, 1, 0, 0], "U refused 21 0\n");
    assert_prints(b'V', 3, &[1, 2, 1, 0, 0], "V refused 21 0\n");
    assert_prints(b'B', 3, &[1, 2, 0, 0], "B refused 20 1\n");
    assert_prints(b'E', 3, &[1, 2, 0, 0], "E 4\n");
    for job in *b"DEPTRSLUVB" {
        assert_prints(job, 3, &[1, 2, 0], "refused 1 3\n");
    }
}

#[test]
fn ill_formed_input_is_an_error() {
    for wrong in [&b""[..], b"D", b"D\x01\0\0", b"X\x01\0\0\0\x01\x02\0\0"] {
        let output = run(&["bench"], wrong);
        assert!(!output.status.success());
        assert!(output.stdout.is_empty());
    }
    assert!(!run(&["bench"], &input(b'D', 0, &P1)).status.success());
    assert!(!run(&["expect"], b"X").status.success());
    assert!(!run(&["corpus", "one"], b"").status.success());
}

#[test]
fn meshplan_reads_all_of_its_input() {
    let expected = "mesh 3 3\nlink 0 0 1 0\nlink 1 0 2 1\nlink 2 1 2 0\n\
        cut 0 0 1 2 - 1 2\ncut 1 2 0 2 - 2 0\ncut 2 1 2 2 - 0 1\n";
    let printed = |book: &[u8]| String::from_utf8(run(&["meshplan"], book).stdout).unwrap();
    assert_eq!(printed(&P1), expected);
    let long = [&P1[..], &[7; 1_000_000]].concat();
    assert_eq!(printed(&long), "refused 10 9\n");
    assert_eq!(printed(&[]), "refused 1 0\n");
    assert_eq!(printed(&[1, 2, 1, 0, 0]), "refused 21 0\n");
}

#[test]
fn corpus_ends_with_the_books_that_are_given() {
    let path = std::env::temp_dir().join(format!("reference-{}.book", std::process::id()));
    let path = path.to_str().unwrap();
    let corpus = |length: usize| {
        std::fs::write(path, vec![1; length]).unwrap();
        run(&["corpus", "1", path, path], b"")
    };
    let [longest, too_long] = [2_900, 2_901].map(corpus);
    std::fs::remove_file(path).unwrap();
    let plain = run(&["corpus", "1"], b"").stdout;
    let case = [&b"L\x54\x0b"[..], &[1; 2_900]].concat();
    assert!(longest.stdout == [&plain[..], &case, &case].concat());
    assert!(!too_long.status.success());
    assert!(!run(&["corpus", "1", path], b"").status.success());
}

#[test]
fn script_writes_the_input_of_calls() {
    let words = "script cut 4 status 257 2 run 256 deliver 3 1 route 1";
    let words: Vec<&str> = words.split(' ').collect();
    let calls = b"\x05\0C\x04\0T\x02\x01\x01R\0\x01\0\0D\x01\x03\0Q\x01";
    let expected = [b"\x0d\0", &P5[..], calls].concat();
    assert_eq!(run(&words, &P5).stdout, expected);
    let answers = "start accepted\ncut 4 accepted\nstatus 257 2 refused 12 257\n\
        run 256 made 12 rest\ndeliver 3 1 refused 24 3\nroute 1 accepted 1 2\n\
        cut-is 4\nstates 1 42240\nreached 1 0 1 2 3\nstates 2 42240\nreached 2 0 1 2 3\n";
    assert_eq!(run(&["calls"], &expected).stdout, answers.as_bytes());
    assert!(!run(&["calls"], b"S").status.success());
    let output = run(&["script", "cut", "4", "wait"], b"");
    assert_eq!(output.status.code(), Some(2));
    assert!(output.stdout.is_empty());
    assert!(output.stderr.starts_with(b"`wait` is no call"));
}

#[test]
fn show_prints_the_lines_of_a_book() {
    let shown = run(&["show"], &P1).stdout;
    assert!(shown.starts_with(b"book 9\nread accepted\nmesh 3 3\n"));
}

#[test]
fn digging_writes_the_input_of_dig() {
    // The triangle with links 0 and 2 in duct 258.
    let book = [1, 3, 3, 0, 16, 2, 1, 2, 2, 17, 1, 2, 1];
    let input = run(&["digging", "duct", "258"], &book).stdout;
    assert_eq!(input, [b"\x0d\0", &book[..], b"D\x02\x01"].concat());
    let expected = "duct 258 lowest 0\nsharing 0 accepted 2\n\
        link 0 0 1 0 0 258\nlink 2 1 2 0 0 258\n";
    assert_eq!(run(&["dig"], &input).stdout, expected.as_bytes());
    let input = run(&["digging", "link", "3"], &book).stdout;
    assert_eq!(input, [b"\x0d\0", &book[..], b"L\x03\0"].concat());
    let expected = b"sharing 3 refused 12 3\n";
    assert_eq!(run(&["dig"], &input).stdout, expected);
    assert!(!run(&["dig"], b"D").status.success());
    let output = run(&["digging", "duct", "65536"], b"");
    assert_eq!(output.status.code(), Some(2));
    assert!(output.stdout.is_empty());
    assert!(output.stderr.starts_with(b"duct 65536: DUCT is a number"));
}

#[test]
fn collecting_writes_the_input_of_bus() {
    let input = run(&["collecting", "2"], &P5).stdout;
    assert_eq!(input, [b"\x0d\0", &P5[..], b"\x02"].concat());
    let expected = "collect 2 accepted 7\nroute 2 0 1 0 3 0 2\n\
        link 0 0 1 0 0 0\nlink 1 0 2 0 0 0\nlink 2 0 3 0 0 0\n";
    assert_eq!(run(&["bus"], &input).stdout, expected.as_bytes());
    let input = run(&["collecting", "4"], &P5).stdout;
    assert_eq!(run(&["bus"], &input).stdout, b"collect 4 refused 6 0\n");
    assert!(!run(&["bus"], b"\0").status.success());
    for words in [&["collecting"][..], &["collecting", "256"]] {
        let output = run(words, b"");
        assert_eq!(output.status.code(), Some(2));
        assert!(output.stdout.is_empty());
        assert!(output.stderr.starts_with(b"root"));
    }
}

#[test]
fn drill_writes_a_book_or_refuses() {
    assert_eq!(run(&["drill"], b"1").stdout, P1);
    assert_eq!(run(&["drill"], b"1\n").stdout, P1);
    let long = [&b"1\n"[..], &[b'\n'; 1_000_000]].concat();
    for input in [&b""[..], b"0", b"63", b"01", b"1\r\n", &long] {
        let output = run(&["drill"], input);
        assert!(output.status.success());
        assert_eq!(output.stdout, b"refused\n");
    }
    assert_eq!(run(&["drill", "1"], b"").status.code(), Some(2));
}

#[test]
fn expect_lists_a_planning() {
    let output = run(&["expect"], b"P\x03\x03\0\0\x01\0\x02\x01\x02");
    let expected = "planning 0 3 3\nplan accepted\ndirections 010\nrest 0\n";
    assert_eq!(String::from_utf8(output.stdout).unwrap(), expected);
}
