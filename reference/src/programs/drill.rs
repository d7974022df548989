//! What the program `drill` writes.

use crate::book::bytes_of;
use crate::drill::{asked, mesh};

const REFUSED: &[u8] = b"refused\n";

/// The book of the mesh that the input asks for; one line where it asks for
/// none.
pub fn answer(input: &[u8]) -> Vec<u8> {
    match asked(input) {
        Some(middles) => bytes_of(&mesh(middles)),
        None => REFUSED.to_vec(),
    }
}

#[cfg(test)]
mod tests {
    use super::*;

    #[test]
    fn writes_the_book_of_1_which_is_p1s() {
        let book = [1, 3, 3, 0, 0, 2, 2, 1, 1];
        assert_eq!(answer(b"1"), book);
        assert_eq!(answer(b"1\n"), book);
    }

    #[test]
    fn writes_the_book_of_2() {
        // (0,2), (0,3), (1,2), (1,3), (2,3).
        let book = [1, 4, 5, 0, 2, 2, 2, 3, 1, 1, 2, 3, 1, 2];
        assert_eq!(answer(b"2"), book);
        assert_eq!(answer(b"2\n"), book);
    }

    #[test]
    fn the_last_is_62() {
        let book = answer(b"62");
        assert_eq!(book[..12], [1, 64, 125, 0, 2, 62, 2, 63, 3, 1, 62, 2]);
        assert_eq!(book[book.len() - 8..], [2, 63, 1, 61, 2, 63, 1, 62]);
        assert_eq!(book.len(), 5 * 62 + 4);
        assert_eq!(answer(b"63"), b"refused\n");
        assert_eq!(answer(b"63\n"), b"refused\n");
    }

    #[test]
    fn other_input_is_refused() {
        let inputs: [&[u8]; 42] = [
            b"",
            b"0",
            b"0\n",
            b"00",
            b"01",
            b"01\n",
            b"07",
            b"062",
            b"64",
            b"99",
            b"100",
            b"127",
            b"255",
            b"256",
            b"257",
            b"258",
            b"1000",
            b"4294967297",
            b"18446744073709551617",
            b"+1",
            b"-1",
            b" 1",
            b"1 ",
            b"1 \n",
            b"1 2",
            b"1\n2",
            b"1\t",
            b"\n",
            b"\n1",
            b"1\n\n",
            b"12\n\n",
            b"1\r",
            b"1\r\n",
            b"1\n\r",
            b"1\0",
            b"1\n\0",
            b"1.0",
            b"1/",
            b"1:",
            b"x",
            b"0x1",
            b"one",
        ];
        for input in inputs {
            assert_eq!(answer(input), b"refused\n", "{input:?}");
        }
    }

    #[test]
    fn longer_input_is_refused() {
        for length in [4, 5, 64, 4_096, 4_097, 100_000] {
            for byte in *b"12 \n" {
                assert_eq!(answer(&vec![byte; length]), b"refused\n");
            }
            let blanks_after = [b"62\n".to_vec(), vec![b'\n'; length]].concat();
            assert_eq!(answer(&blanks_after), b"refused\n");
        }
    }
}
