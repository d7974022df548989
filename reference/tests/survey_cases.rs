//! What the surveys of every seed hold, and that they tell each of the wrong
//! surveys from the right one.

mod wrong_surveys;

use std::collections::BTreeSet;

use reference::case::{read_cases, write_cases, Case};
use reference::corpus::surveys;
use reference::listing::listing;
use reference::mesh::{Mesh, MOST_LINKS};
use reference::survey::{survey, Survey};

use wrong_surveys::{Surveyed, WRONG_ANSWERS, WRONG_BRIDGES, WRONG_PARTS};

const SEEDS: [u64; 4] = [0, 1, 2, u64::MAX];

fn meshes(seed: u64) -> Vec<Mesh> {
    let cases = surveys::cases(seed).into_iter();
    let mesh = |case| match case {
        Case::Survey { mesh } => *mesh,
        _ => panic!("another case"),
    };
    cases.map(mesh).collect()
}

#[test]
fn written_surveys_read_back() {
    for seed in SEEDS {
        let cases = surveys::cases(seed);
        assert_eq!(read_cases(&write_cases(&cases)), Ok(cases));
    }
}

#[test]
fn the_seed_decides_the_surveys() {
    assert_eq!(surveys::cases(7), surveys::cases(7));
    assert_ne!(surveys::cases(7), surveys::cases(8));
}

#[test]
fn counts_and_sizes() {
    for seed in SEEDS {
        let cases = surveys::cases(seed);
        assert!(cases.len() >= 1_000);
        assert!(write_cases(&cases).len() < 390_000);
        assert!(listing(&cases).unwrap().len() < 200_000);
    }
}

/// The words of a line after its first.
fn values(line: &str) -> Vec<&str> {
    line.split(' ').skip(1).collect()
}

#[test]
fn surveys_have_parts_and_bridging_links() {
    for seed in SEEDS {
        let (meshes, listing) = (meshes(seed), listing(&surveys::cases(seed)).unwrap());
        let lines: Vec<&str> = listing.lines().collect();
        assert_eq!(lines.len(), 5 * meshes.len());
        let mut counts = [0; 4];
        for (lines, mesh) in lines.chunks(5).zip(&meshes) {
            let (parts, bridges) = (values(lines[2]), values(lines[4]));
            let accepted = lines[1] == "survey accepted";
            assert_eq!(parts.len(), usize::from(accepted) * usize::from(mesh.nodes));
            assert_eq!(lines[3], "rest 0");
            let apart = parts.iter().any(|part| *part != "0");
            let kind = 2 * usize::from(apart) + usize::from(!bridges.is_empty());
            counts[kind] += usize::from(accepted);
        }
        // Whole without and with bridging links, apart without and with them.
        assert!(counts.iter().all(|count| *count > 60), "{counts:?}");
    }
}

#[test]
fn every_refusal_of_a_mesh_is_met_and_no_other() {
    for seed in SEEDS {
        let listing = listing(&surveys::cases(seed)).unwrap();
        let refused = listing
            .lines()
            .filter_map(|line| line.strip_prefix("survey refused "));
        let numbers = refused.map(|rest| rest.split(' ').next().unwrap());
        let expected = BTreeSet::from(["3", "4", "6", "7", "8", "13"]);
        assert_eq!(numbers.collect::<BTreeSet<_>>(), expected);
        assert!(listing.is_ascii() && !listing.contains(" \n"));
    }
}

/// How many meshes of a corpus have another survey.
fn told_apart(meshes: &[Mesh], wrong: impl Fn(&Mesh, &Survey) -> Surveyed) -> usize {
    let differs = |mesh: &&Mesh| {
        let (survey, answer) = survey(mesh);
        wrong(mesh, &survey) != (survey, answer)
    };
    meshes.iter().filter(differs).count()
}

fn assert_told(what: &str, seed: u64, count: usize) {
    println!("seed {seed}: {what}: {count}");
    assert!(count >= 1, "{what}, seed {seed}");
}

#[test]
fn wrong_bridging_links_are_told() {
    for seed in SEEDS {
        let meshes = meshes(seed);
        for (what, test) in WRONG_BRIDGES {
            let count = told_apart(&meshes, |mesh, survey| {
                let mut wrong = survey.clone();
                if mesh.check().is_ok() {
                    let links = 0..mesh.counted().len();
                    links.for_each(|link| wrong.bridging[link] = test(mesh, survey, link));
                }
                (wrong, mesh.check())
            });
            assert_told(what, seed, count);
        }
    }
}

#[test]
fn wrong_parts_are_told() {
    for seed in SEEDS {
        let meshes = meshes(seed);
        for (what, name) in WRONG_PARTS {
            let count = told_apart(&meshes, |mesh, survey| {
                let mut wrong = survey.clone();
                if mesh.check().is_ok() {
                    let nodes = 0..usize::from(mesh.nodes);
                    nodes.for_each(|node| wrong.parts[node] = name(mesh, survey, node));
                }
                (wrong, mesh.check())
            });
            assert_told(what, seed, count);
        }
    }
}

#[test]
fn wrong_answers_are_told() {
    for seed in SEEDS {
        let meshes = meshes(seed);
        for (what, wrong) in WRONG_ANSWERS {
            assert_told(what, seed, told_apart(&meshes, |mesh, _| wrong(mesh)));
        }
    }
}

#[test]
fn there_are_meshes_of_every_number_of_nodes_and_of_256_links() {
    let meshes = meshes(1);
    for nodes in 2..=64 {
        assert!(meshes.iter().any(|mesh| mesh.nodes == nodes));
    }
    let full = meshes
        .iter()
        .filter(|mesh| mesh.counted().len() == MOST_LINKS);
    assert!(full.count() > 15);
}
