//! Inputs of the program `drill`.

use std::collections::BTreeSet;

use crate::case::{Case, MOST_INPUT};
use crate::drill::MOST_MIDDLES;
use crate::random::Random;

type Input = Vec<u8>;

/// Bytes beside a digit: controls, blanks, signs, those next to the digits in
/// ASCII, letters, and a digit, a line feed and others with the high bit set.
const BESIDE: [u8; 32] = [
    0, 1, 8, b'\t', b'\n', 11, 12, b'\r', 14, 26, 27, 31, b' ', b'!', b'"', b'\'', b'+', b',',
    b'-', b'.', b'/', b':', b';', b'A', b'_', b'e', b'x', 127, 128, 138, 177, 255,
];

/// Each input once.
pub fn cases(random: &mut Random) -> Vec<Case> {
    let mut inputs = numbers();
    inputs.extend(wrapped_numbers());
    inputs.extend(leading_zeros());
    inputs.extend(named());
    inputs.extend((0..=255).map(|byte| vec![byte]));
    inputs.extend(beside_digits());
    inputs.extend(after_the_line_feed());
    inputs.extend(long());
    inputs.extend((0..150).map(|_| of_few_bytes(random)));
    inputs.extend((0..150).map(|_| changed(random)));
    inputs.extend((0..50).map(|_| any_bytes(random)));
    let mut met = BTreeSet::new();
    inputs.retain(|input| met.insert(input.clone()));
    let case = |input| Case::DrillInput { input };
    inputs.into_iter().map(case).collect()
}

/// The text, without and with a line feed after it.
fn both(text: &str) -> [Input; 2] {
    [text.into(), format!("{text}\n").into()]
}

fn all(texts: &[&str]) -> Vec<Input> {
    texts.iter().map(|text| Input::from(*text)).collect()
}

/// 0 to 120, of which 1 to 62 ask for a drill, and numbers of three digits.
fn numbers() -> Vec<Input> {
    let numbers = (0..=120).chain((130..1_000).step_by(37)).chain([999]);
    numbers
        .flat_map(|number| both(&number.to_string()))
        .collect()
}

/// Numbers that are 1 to 62 above a power of two, which 8, 16, 32 or 64 bits
/// would hold as 1 to 62.
fn wrapped_numbers() -> Vec<Input> {
    let mut numbers: Vec<u128> = (257..=318).collect();
    for power in [16, 32, 64] {
        numbers.extend([0, 1, 9, 10, 62, 63].map(|number| (1 << power) + number));
    }
    let texts = numbers.iter().map(u128::to_string);
    texts.flat_map(|text| both(&text)).collect()
}

/// Zeros before a number, and zeros alone.
fn leading_zeros() -> Vec<Input> {
    let mut inputs = Vec::new();
    for zeros in ["0", "00", "000", "00000000"] {
        inputs.extend(both(zeros));
        for number in (0..10).chain([10, 11, 42, 61, 62, 63, 100]) {
            inputs.extend(both(&format!("{zeros}{number}")));
        }
    }
    inputs
}

/// Signs, blanks, line ends, letters and bytes that are no ASCII around a
/// number, and inputs without one.
fn named() -> Vec<Input> {
    let mut inputs = all(&["", "\n", "\n\n", "\r", "\r\n", "\n\r", " ", "\t", "\0"]);
    inputs.extend(all(&[
        "refused",
        "refused\n",
        "a",
        "m",
        "one",
        "m = 1",
        "\u{feff}1",
    ]));
    for number in ["1", "7", "9", "10", "42", "62"] {
        for before in [
            "+", "-", "--", " ", "  ", "\t", "\n", "\r", "\r\n", "\0", "a", "0x", "#", "'",
        ] {
            inputs.extend(both(&format!("{before}{number}")));
        }
        for after in [
            " ", "  ", "\t", "\n", "\n\n", "\r", "\r\n", "\n\r", "\0", "\n\0", " \n", "\x0b",
            "\x0c", "\u{85}", "\u{2028}", "a", ".", ".0", ",", ",0", "e0", "_", "\n ", "\n1",
        ] {
            inputs.extend(both(&format!("{number}{after}")));
        }
    }
    for between in [
        "", " ", "\n", "\r", "\t", "\0", "\r\n", ",", ".", "_", "'", "+", "-", "\u{a0}",
    ] {
        for (first, second) in [("1", "2"), ("6", "2"), ("0", "1"), ("62", "62")] {
            inputs.extend(both(&format!("{first}{between}{second}")));
        }
    }
    // Digits of other scripts.
    inputs.extend(["١", "１", "६२", "²", "Ⅰ"].into_iter().flat_map(both));
    inputs
}

/// Each digit with each of the bytes before it and after it.
fn beside_digits() -> Vec<Input> {
    let pairs = |digit| {
        BESIDE
            .into_iter()
            .flat_map(move |byte| [[byte, digit], [digit, byte]])
    };
    let all = (b'0'..=b'9').flat_map(pairs);
    all.map(Input::from).collect()
}

/// More bytes after the line feed.
fn after_the_line_feed() -> Vec<Input> {
    let mut inputs = Vec::new();
    for line in [&b"1\n"[..], b"9\n", b"10\n", b"62\n", b"63\n"] {
        let bytes = BESIDE.into_iter().chain(b'0'..=b'9');
        inputs.extend(bytes.map(|byte| [line, &[byte]].concat()));
        inputs.push([line, line].concat());
    }
    inputs
}

/// Inputs up to the greatest length.
fn long() -> Vec<Input> {
    let mut inputs = Vec::new();
    for length in [4, 5, 8, 16, 64, 255, 256, 257, 299, MOST_INPUT] {
        for byte in *b"0126 \n" {
            inputs.push(vec![byte; length]);
        }
        for text in ["1", "62", "1\n", "62\n"] {
            let text = text.as_bytes();
            let blanks = vec![b' '; length - text.len()];
            let line_feeds = vec![b'\n'; length - text.len()];
            let zeros = vec![b'0'; length - text.len()];
            inputs.push([text, &blanks].concat());
            inputs.push([text, &line_feeds].concat());
            inputs.push([&blanks, text].concat());
            inputs.push([&zeros, text].concat());
        }
        inputs.push(b"1 ".iter().copied().cycle().take(length).collect());
        inputs.push(b"1\n".iter().copied().cycle().take(length).collect());
        inputs.push(b"1234567890".iter().copied().cycle().take(length).collect());
    }
    inputs
}

/// Mostly digits and line feeds.
fn of_few_bytes(random: &mut Random) -> Input {
    let length = random.between(1, 5);
    let bytes = b"0123456789123456\n\n\n \r+";
    (0..length).map(|_| random.pick(bytes)).collect()
}

/// A good input with one byte more, one less, another one, or two swapped.
fn changed(random: &mut Random) -> Input {
    let number = random.between(1, MOST_MIDDLES.into());
    let mut input = both(&number.to_string())[random.below(2)].clone();
    let at = random.below(input.len());
    match random.below(5) {
        0 => input.insert(at, random.byte()),
        1 => input.push(random.byte()),
        2 => _ = input.remove(at),
        3 => input[at] = input[at].wrapping_add(random.pick(&[1, 255, 128])),
        _ => input.swap(0, at),
    }
    input
}

fn any_bytes(random: &mut Random) -> Input {
    let length = random.between(1, 12);
    random.bytes(length)
}

#[cfg(test)]
mod tests {
    use super::*;
    use crate::drill::asked;

    fn inputs(seed: u64) -> Vec<Input> {
        let input = |case| match case {
            Case::DrillInput { input } => input,
            _ => panic!("another case"),
        };
        cases(&mut Random::new(seed))
            .into_iter()
            .map(input)
            .collect()
    }

    #[test]
    fn each_good_input_is_there_once_and_most_are_refused() {
        for seed in 0..20 {
            let inputs = inputs(seed);
            let mut met: Vec<u8> = inputs.iter().filter_map(|input| asked(input)).collect();
            met.sort_unstable();
            let expected: Vec<u8> = (1..=62).flat_map(|middles| [middles; 2]).collect();
            assert_eq!(met, expected);
            assert!(inputs.len() > 1_500);
        }
    }

    #[test]
    fn inputs_of_every_length_near_the_good_ones_and_of_the_greatest() {
        let inputs = inputs(1);
        let of_length = |length| inputs.iter().filter(|input| input.len() == length).count();
        assert_eq!((of_length(0), of_length(1)), (1, 256));
        for length in [2, 3, 4, 5] {
            assert!(of_length(length) > 100);
        }
        assert!(of_length(300) > 20);
        assert!(inputs.iter().all(|input| input.len() <= MOST_INPUT));
    }
}
