//! Calls from words, as `cut 4 status 1 2 route 1`.

use std::fmt::Display;
use std::slice::Iter;
use std::str::FromStr;

use super::Call;

/// The words of each call.
pub const CALLS: &str = "cut LINK | deliver LINK WAVELENGTH | mend LINK | \
    status LINK WAVELENGTH | run ALLOWANCE | route WAVELENGTH";

/// The most calls of a script.
const MOST_CALLS: usize = u16::MAX as usize;

/// The words that are not read yet.
type Rest<'a> = Iter<'a, &'a str>;

/// The calls in order; otherwise what is wrong with the first word that is no
/// call or no number of its call. The start, which comes before all calls, can
/// be named first.
pub fn calls_of(words: &[&str]) -> Result<Vec<Call>, String> {
    let mut rest = words.strip_prefix(&["start"]).unwrap_or(words).iter();
    let mut calls = Vec::new();
    while let Some(word) = rest.next() {
        calls.push(match *word {
            "cut" => Call::Cut(link(word, &mut rest)?),
            "deliver" => named(Call::Deliver, word, &mut rest)?,
            "mend" => Call::Mend(link(word, &mut rest)?),
            "status" => named(Call::Status, word, &mut rest)?,
            "run" => Call::Run(number(word, "ALLOWANCE", u32::MAX, rest.next())?),
            "route" => Call::Route(wavelength(word, &mut rest)?),
            _ => return Err(format!("`{word}` is no call; the calls are: {CALLS}")),
        });
    }
    if calls.len() > MOST_CALLS {
        return Err(format!("{} calls, the most are {MOST_CALLS}", calls.len()));
    }
    Ok(calls)
}

/// A call that names a link and a wavelength.
fn named(call: fn(u16, u8) -> Call, word: &str, rest: &mut Rest) -> Result<Call, String> {
    let link = link(word, rest)?;
    let wavelength = wavelength(&format!("{word} {link}"), rest)?;
    Ok(call(link, wavelength))
}

fn link(before: &str, rest: &mut Rest) -> Result<u16, String> {
    number(before, "LINK", u16::MAX, rest.next())
}

/// Numbers that are no wavelength are let through: the call refuses them.
fn wavelength(before: &str, rest: &mut Rest) -> Result<u8, String> {
    let number = number(before, "WAVELENGTH", u8::MAX, rest.next());
    number.map_err(|why| format!("{why}; the wavelengths are 1 and 2"))
}

/// The number after a call's word, or after the word and its first number.
pub fn number<Number: FromStr + Display>(
    before: &str,
    name: &str,
    most: Number,
    word: Option<&&str>,
) -> Result<Number, String> {
    let range = format!("{name} is a number from 0 to {most}");
    let Some(word) = word else {
        return Err(format!("{before}: {name} is missing; {range}"));
    };
    let number = word.parse();
    number.map_err(|_| format!("{before} {word}: {range}"))
}

#[cfg(test)]
mod tests {
    use super::*;

    fn calls(text: &str) -> Result<Vec<Call>, String> {
        calls_of(&text.split_whitespace().collect::<Vec<&str>>())
    }

    #[test]
    fn reads_every_call() {
        let expected = vec![
            Call::Cut(4),
            Call::Deliver(65_535, 2),
            Call::Status(0, 255),
            Call::Run(u32::MAX),
            Call::Route(1),
            Call::Mend(4),
        ];
        let text = "cut 4 deliver 65535 2 status 0 255 run 4294967295 route 1 mend 4";
        assert_eq!(calls(text), Ok(expected));
        assert_eq!(calls(&format!("start {text}")), calls(text));
        assert_eq!(calls(""), Ok(Vec::new()));
    }

    #[test]
    fn other_words_are_no_calls() {
        let no_call = |word| format!("`{word}` is no call; the calls are: {CALLS}");
        let link = "LINK is a number from 0 to 65535";
        let wavelength = "WAVELENGTH is a number from 0 to 255; the wavelengths are 1 and 2";
        let no_wavelength = |call| format!("{call}: WAVELENGTH is missing; {wavelength}");
        for (text, why) in [
            ("cuts 4", no_call("cuts")),
            ("route 1 1", no_call("1")),
            ("route 1 start", no_call("start")),
            ("route 2 cut", format!("cut: LINK is missing; {link}")),
            ("cut cut", format!("cut cut: {link}")),
            ("mend -1", format!("mend -1: {link}")),
            ("status 65536", format!("status 65536: {link}")),
            ("status 4", no_wavelength("status 4")),
            ("cut 4 deliver 1", no_wavelength("deliver 1")),
            ("cut 4 route", no_wavelength("route")),
            ("route cut", format!("route cut: {wavelength}")),
            ("deliver 1 256", format!("deliver 1 256: {wavelength}")),
            (
                "deliver 1 status",
                format!("deliver 1 status: {wavelength}"),
            ),
            (
                "run 4294967296",
                "run 4294967296: ALLOWANCE is a number from 0 to 4294967295".to_string(),
            ),
        ] {
            assert_eq!(calls(text), Err(why), "{text}");
        }
    }

    #[test]
    fn a_script_has_a_most() {
        let words = ["route", "1"].repeat(MOST_CALLS + 1);
        assert_eq!(calls_of(&words[2..]).unwrap().len(), MOST_CALLS);
        let why = "65536 calls, the most are 65535";
        assert_eq!(calls_of(&words), Err(why.to_string()));
    }
}
