//! Makes a corpus from a seed.

pub mod accepted;
pub mod changed;
pub mod collections;
pub mod doubled;
pub mod draft;
pub mod drills;
pub mod ducts;
pub mod faults;
pub mod graphs;
pub mod headers;
pub mod largest_graphs;
pub mod listings;
pub mod mesh_records;
pub mod mesh_sweeps;
pub mod meshes;
pub mod named_graphs;
pub mod parted_graphs;
pub mod planning;
pub mod questions;
pub mod random_graphs;
pub mod scripts;
pub mod shapes;
pub mod surveys;
pub mod truncated;
pub mod upgrades;
pub mod wrong_meshes;
pub mod wrong_plannings;
pub mod wrong_records;

use crate::book::bytes_of;
use crate::case::Case;
use crate::random::Random;

/// All cases of the corpus, none of them a survey (`surveys`): books first, then mesh records, then plannings,
/// then scripts, then books to list, then old sessions, then duct queries, then
/// collection routes, then drills: their inputs, their meshes and scripts on
/// these; then all kinds but those of drills again, on meshes with several links
/// between the same nodes. Those about ducts are drawn aside.
pub fn make(seed: u64) -> Vec<Case> {
    let mut random = Random::new(seed);
    let mut aside = random.aside();
    let books = all_books(&mut random);
    let mut cases: Vec<Case> = books
        .into_iter()
        .map(|book| questions::ask(book, &mut random))
        .collect();
    cases.extend(questions::every_question(&mut random));
    let books = ducts::books::books(&mut aside);
    cases.extend(
        books
            .into_iter()
            .map(|book| questions::ask(book, &mut aside)),
    );
    cases.extend(mesh_records::cases(&mut random));
    cases.extend(ducts::records::cases(&mut aside));
    cases.extend(planning::cases(&mut random));
    cases.extend(scripts::cases(&mut random));
    cases.extend(ducts::scripts::cases(&mut aside));
    cases.extend(listings::cases(&mut random));
    cases.extend(upgrades::cases(seed));
    cases.extend(ducts::queries::cases(&mut aside));
    cases.extend(collections::cases(seed));
    cases.extend(drills::cases(seed));
    cases.extend(doubled::cases(seed));
    cases
}

fn all_books(random: &mut Random) -> Vec<Vec<u8>> {
    let mut books: Vec<Vec<u8>> = accepted::meshes(random).iter().map(bytes_of).collect();
    let changed = changed::books(&books, random);
    books.extend(headers::books(random));
    books.extend(faults::books(random));
    books.extend(truncated::books(random));
    books.extend(changed);
    books
}
