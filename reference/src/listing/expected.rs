//! Lines that tests expect.

/// The same lines of the session on which calls are made in place.
pub fn in_place(lines: &str) -> String {
    let line = |line| format!("in-place {line}\n");
    lines.lines().map(line).collect()
}

/// Each line, by value and then in place.
pub fn twice(lines: &str) -> String {
    let line = |line| format!("{line}\n{}", in_place(line));
    lines.lines().map(line).collect()
}

/// A session's lines: the states, zeros past them, and the reached nodes of
/// each wavelength.
pub fn session(cut: &str, [first, second]: [(&str, &str); 2], digest: u64) -> String {
    let lines = |number, (states, reached): (&str, &str)| {
        format!("states {number} {states:0<256}\nreached {number}{reached}\n")
    };
    let floods = format!("{}{}", lines(1, first), lines(2, second));
    format!("{cut}\n{floods}digest {digest}\n")
}
