//! Does one job many times, so that its time can be measured from outside.

mod collections;
mod sessions;

use std::hint::black_box;

use crate::book::{decode, encode};
use crate::case::MOST_BYTES;
use crate::mesh::Mesh;
use crate::plan::{plan, Plan};
use crate::reader::Reader;
use crate::refusal::{in_words, Answer};
use crate::two_pass_plan;

pub const DECODE: u8 = b'D';
pub const ENCODE: u8 = b'E';
pub const PLAN: u8 = b'P';
/// Planning by the plain planner; prints what `PLAN` prints.
pub const PLAN_IN_TWO_PASSES: u8 = b'T';
pub const RUN: u8 = b'R';
/// A run with wavelength 2 at rest from the beginning.
pub const RUN_OF_FIRST: u8 = b'S';
pub const CUT: u8 = b'C';
pub const DELIVER: u8 = b'L';
pub const STATUS: u8 = b'U';
pub const STATUS_AT_REST: u8 = b'V';
pub const COLLECT: u8 = b'B';

/// A planner: gives the plan of a mesh.
type Planner = fn(&Mesh) -> (Plan, Answer);

/// The bytes that `line` reads: job, number of repeats, book.
pub fn input(job: u8, repeats: u32, book: &[u8]) -> Vec<u8> {
    let mut input = vec![job];
    input.extend(repeats.to_le_bytes());
    input.extend(book);
    input
}

/// The line of a bench input's last result; an error if the input is
/// ill-formed. A refused book is not repeated.
pub fn line(input: &[u8]) -> Result<String, String> {
    let mut reader = Reader::new(input);
    let job = reader.one().ok_or("no job")?;
    let repeats = reader.four().ok_or("no number of repeats")?;
    if repeats == 0 {
        return Err("no repeat".to_string());
    }
    let book = &input[reader.at()..];
    match decode(book) {
        (mesh, Ok(())) => repeat(job, repeats, book, mesh),
        (_, refused) => Ok(in_words(refused)),
    }
}

fn repeat(job: u8, repeats: u32, book: &[u8], mesh: Mesh) -> Result<String, String> {
    match job {
        DECODE => Ok(format!("D {}", in_words(decode_often(repeats, book)))),
        ENCODE => Ok(format!("E {}", encode_often(repeats, mesh))),
        PLAN => Ok(plan_line(repeats, mesh, plan)),
        PLAN_IN_TWO_PASSES => Ok(plan_line(repeats, mesh, two_pass_plan::plan)),
        RUN => Ok(sessions::run_line(repeats, &mesh)),
        RUN_OF_FIRST => Ok(sessions::run_of_first_line(repeats, &mesh)),
        CUT => Ok(sessions::cut_line(repeats, &mesh)),
        DELIVER => Ok(sessions::delivery_line(repeats, &mesh)),
        STATUS => Ok(sessions::status_line(repeats, &mesh)),
        STATUS_AT_REST => Ok(sessions::status_at_rest_line(repeats, &mesh)),
        COLLECT => Ok(collections::collect_line(repeats, &mesh)),
        _ => Err(format!("unknown job {job}")),
    }
}

fn decode_often(repeats: u32, book: &[u8]) -> Answer {
    let mut book = book.to_vec();
    let place = length_place(&book);
    let mut last = Ok(());
    for number in 0..repeats {
        if let (Some(place), 1..) = (place, number) {
            book[place] = (number % 255) as u8 + 1;
        }
        let (mesh, answer) = decode(black_box(&book));
        black_box(&mesh);
        last = black_box(answer);
    }
    last
}

/// Where the low byte of link 0's length stands, if it is written.
fn length_place(book: &[u8]) -> Option<usize> {
    let map = *book.get(4)?;
    let ends = (map & 1) + (map >> 1 & 1);
    (map & 4 != 0).then_some(5 + usize::from(ends))
}

/// The length of the book, 0 if it is refused.
fn encode_often(repeats: u32, mut mesh: Mesh) -> usize {
    let mut output = vec![0; MOST_BYTES];
    let mut last = 0;
    for number in 0..repeats {
        change_length(&mut mesh, number);
        let written = encode(black_box(&mesh), black_box(&mut output));
        last = black_box(written).unwrap_or(0);
    }
    last
}

fn plan_line(repeats: u32, mesh: Mesh, planner: Planner) -> String {
    let count = mesh.counted().len();
    let (plan, answer) = plan_often(repeats, mesh, planner);
    let line = format!("P {} {}", in_words(answer), plan.digits(count));
    line.trim_end().to_string()
}

fn plan_often(repeats: u32, mut mesh: Mesh, planner: Planner) -> (Plan, Answer) {
    let mut last = (Plan::ZERO, Ok(()));
    for number in 0..repeats {
        change_length(&mut mesh, number);
        last = black_box(planner(black_box(&mesh)));
    }
    last
}

/// Gives link 0, if there is one, another length before each repeat.
fn change_length(mesh: &mut Mesh, repeat: u32) {
    if mesh.count > 0 {
        mesh.links[0].length = (repeat % 65_535) as u16 + 1;
    }
}
