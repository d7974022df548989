//! What every corpus holds.

use std::collections::BTreeSet;
use std::sync::OnceLock;

use reference::case::{read_cases, write_cases, Case, MOST_BYTES, MOST_ENTRIES, MOST_INPUT};
use reference::corpus;
use reference::listing::listing;

const SEEDS: [u64; 4] = [0, 1, 2, u64::MAX];

/// The cases of one kind in a corpus, and their listing.
struct Part {
    cases: Vec<Case>,
    listing: String,
}

/// Books, mesh records, plannings, scripts, books to list, old sessions, duct
/// queries, collection routes, drills' inputs, drills' meshes.
type Parts = [Part; 10];

fn kind(case: &Case) -> usize {
    match case {
        Case::Book { .. } => 0,
        Case::Mesh { .. } => 1,
        Case::Planning { .. } => 2,
        Case::Script(_) => 3,
        Case::Listing { .. } => 4,
        Case::Upgrade(_) => 5,
        Case::Ducts { .. } => 6,
        Case::Collection { .. } => 7,
        Case::DrillInput { .. } => 8,
        Case::DrillMesh { .. } => 9,
        Case::Survey { .. } => panic!("no corpus has a survey"),
    }
}

/// The corpus of each seed, made once for all tests.
fn corpora() -> &'static [Parts] {
    static MADE: OnceLock<Vec<Parts>> = OnceLock::new();
    MADE.get_or_init(|| SEEDS.map(|seed| parts(&corpus::make(seed))).into())
}

fn parts(cases: &[Case]) -> Parts {
    [0, 1, 2, 3, 4, 5, 6, 7, 8, 9].map(|number| {
        let of_kind = cases.iter().filter(|case| kind(case) == number);
        let cases: Vec<Case> = of_kind.cloned().collect();
        let listing = listing(&cases).expect("both methods of planning agree");
        Part { cases, listing }
    })
}

/// The refusal numbers on the lines of all parts that start with `word`.
fn refusals(parts: &Parts, word: &str) -> BTreeSet<u8> {
    let start = format!("{word} refused ");
    let lines = parts.iter().flat_map(|part| part.listing.lines());
    let after_word = lines.filter_map(|line| line.strip_prefix(&start));
    let numbers = after_word.filter_map(|rest| rest.split(' ').next());
    numbers.map(|number| number.parse().unwrap()).collect()
}

fn count_lines(listing: &str, start: &str) -> usize {
    let lines = listing.lines();
    lines.filter(|line| line.starts_with(start)).count()
}

#[test]
fn a_written_corpus_reads_back() {
    for seed in SEEDS {
        let cases = corpus::make(seed);
        assert_eq!(read_cases(&write_cases(&cases)), Ok(cases));
    }
}

#[test]
fn the_seed_decides_the_corpus() {
    assert_eq!(corpus::make(7), corpus::make(7));
    assert_ne!(corpus::make(7), corpus::make(8));
}

#[test]
fn an_ill_formed_corpus_is_an_error() {
    let corpus = write_cases(&corpus::make(1)[..3]);
    assert!(read_cases(&corpus[..corpus.len() - 1]).is_err());
    assert!(read_cases(b"X").is_err());
    let with_257_links = [&[b'P', 64, 1, 1][..], &[0; 2 * 257]].concat();
    assert!(read_cases(&with_257_links).is_err());
    let script = |book: &[u8], rest: &[u8]| {
        let length = book.len() as u8;
        read_cases(&[&[b'S', length, 0], book, rest].concat())
    };
    assert!(script(&[1, 2, 0, 0], &[0, 0, 0]).is_ok());
    assert!(script(&[1, 1, 0, 0], &[0, 0, 0]).is_err());
    assert!(script(&[1, 2, 0, 0], &[3, 0, 0]).is_err());
    let nodes = |first, second| {
        let floods = [0, 0, 1, first, 0, 0, 1, second];
        [&[2, 0, 0, 255, 255][..], &floods, &[0, 2, 0, 0, 0, 0]].concat()
    };
    assert!(script(&[1, 2, 0, 0], &nodes(63, 63)).is_ok());
    assert!(script(&[1, 2, 0, 0], &nodes(64, 63)).is_err());
    assert!(script(&[1, 2, 0, 0], &nodes(63, 64)).is_err());
    let with_257_directions = [&[1, 1, 1][..], &[0; 257 + 2]].concat();
    assert!(script(&[1, 2, 0, 0], &with_257_directions).is_err());
}

#[test]
fn an_ill_formed_old_session_of_a_corpus_is_an_error() {
    let upgrade = |directions: usize, reached: u8| {
        let count = (directions as u16).to_le_bytes();
        let cut_and_flood = [255, 255, 0, 0, 1, reached];
        let parts = [
            &[b'U', 2, 0, 0, 0, 0][..],
            &count,
            &vec![0; directions],
            &cut_and_flood,
            &[0, 0],
        ];
        parts.concat()
    };
    let good = upgrade(256, 63);
    assert!(read_cases(&good).is_ok());
    for length in 1..good.len() {
        assert!(read_cases(&good[..length]).is_err());
    }
    assert!(read_cases(&upgrade(257, 63)).is_err());
    assert!(read_cases(&upgrade(256, 64)).is_err());
}

fn each_kind_together(cases: &[Case]) -> bool {
    let mut neighbours = cases.windows(2);
    neighbours.all(|two| kind(&two[0]) <= kind(&two[1]))
}

/// Scripts on drills' meshes come after these, and then all kinds but those of
/// drills, on meshes with several links between the same nodes.
#[test]
fn each_kind_stands_together_up_to_the_drills_and_after_them() {
    for seed in SEEDS {
        let cases = corpus::make(seed);
        let is_mesh = |case| matches!(case, &Case::DrillMesh { .. });
        let last_mesh = cases.iter().rposition(is_mesh).unwrap();
        let (before, after) = cases.split_at(last_mesh + 1);
        let is_script = |case: &&Case| matches!(case, Case::Script(_));
        let scripts = after.iter().take_while(is_script).count();
        let doubled = &after[scripts..];
        assert!(scripts >= 100 && doubled.len() >= 4_900);
        assert!(each_kind_together(before) && each_kind_together(doubled));
        let kinds: BTreeSet<usize> = doubled.iter().map(kind).collect();
        assert_eq!(kinds, BTreeSet::from_iter(0..8));
    }
}

#[test]
fn counts_and_sizes() {
    // Books, mesh records, plannings, scripts, books to list, old sessions, duct
    // queries, collection routes, drills' inputs, drills' meshes.
    let fewest = [
        8_500, 3_000, 4_200, 4_950, 1_700, 750, 1_600, 2_250, 2_500, 277,
    ];
    let most_bytes = [
        520_000, 430_000, 500_000, 1_460_000, 270_000, 350_000, 350_000, 350_000, 50_000, 1_200,
    ];
    let longest_listings = [
        2_400_000, 720_000, 500_000, 12_300_000, 2_000_000, 2_150_000, 220_000, 270_000, 90_000,
        260_000,
    ];
    for parts in corpora() {
        for (number, part) in parts.iter().enumerate() {
            assert!(part.cases.len() >= fewest[number]);
            assert!(write_cases(&part.cases).len() < most_bytes[number]);
            assert!(part.listing.len() < longest_listings[number]);
        }
        let bytes = parts.iter().map(|part| write_cases(&part.cases).len());
        assert!(bytes.sum::<usize>() < 3_800_000);
        let listings = parts.iter().map(|part| part.listing.len());
        assert!(listings.sum::<usize>() < 20_100_000);
    }
}

#[test]
fn rooms_and_books_are_within_the_limit() {
    for case in corpora().iter().flatten().flat_map(|part| &part.cases) {
        let (room, length) = match case {
            Case::Book { room, book, .. } => (*room, book.len()),
            Case::Mesh { room, .. } | Case::DrillMesh { room, .. } => (*room, 0),
            Case::Planning { .. } => (0, 0),
            Case::Script(script) => (0, script.book.len()),
            Case::Listing { book } => (0, book.len()),
            Case::Upgrade(_) | Case::Survey { .. } => (0, 0),
            Case::Ducts { room, .. } | Case::Collection { room, .. } => {
                assert!(usize::from(*room) <= MOST_ENTRIES);
                (0, 0)
            }
            Case::DrillInput { input } => {
                assert!(input.len() <= MOST_INPUT);
                (0, 0)
            }
        };
        assert!(usize::from(room) <= MOST_BYTES);
        assert!(length <= MOST_BYTES);
    }
}

#[test]
fn every_refusal_is_met() {
    let reading = BTreeSet::from_iter(1..=10);
    let showing = BTreeSet::from_iter((1..=10).chain([12]));
    let mesh = [3, 4, 6, 7, 8, 13];
    let mesh_and = |own: &[u8]| mesh.iter().chain(own).copied().collect();
    for parts in corpora() {
        assert_eq!(refusals(parts, "read"), reading);
        assert_eq!(refusals(parts, "record"), showing);
        assert_eq!(refusals(parts, "check"), mesh_and(&[]));
        assert_eq!(refusals(parts, "write"), mesh_and(&[11]));
        assert_eq!(refusals(parts, "plan"), mesh_and(&[20, 21]));
        assert_eq!(refusals(parts, "start"), mesh_and(&[]));
        assert_eq!(refusals(parts, "carry-over"), mesh_and(&[]));
        assert_eq!(refusals(parts, "sharing"), mesh_and(&[11, 12]));
        assert_eq!(refusals(parts, "collect"), mesh_and(&[11, 20]));
        let plannings = &parts[2].listing;
        assert!(count_lines(plannings, "plan accepted") >= 1_100);
        assert!(count_lines(plannings, "plan refused 20 ") >= 500);
        assert!(count_lines(plannings, "plan refused 21 ") >= 700);
    }
}

#[test]
fn every_refusal_of_a_listing_is_met() {
    for [_, _, _, _, part, ..] in corpora() {
        let lines = part.listing.lines();
        let refused = lines.filter_map(|line| line.strip_prefix("refused "));
        let numbers = refused.map(|rest| rest.split(' ').next().unwrap().parse().unwrap());
        let expected = BTreeSet::from_iter((1..=10).chain([20, 21]));
        assert_eq!(numbers.collect::<BTreeSet<u8>>(), expected);
        assert!(count_lines(&part.listing, "mesh ") >= 750);
        assert_eq!(part.listing.matches("mesh 64 256\n").count(), 3);
    }
}

/// The refusal numbers on the lines of one kind of call, whose arguments stand
/// before the answer.
fn script_refusals(scripts: &str, word: &str) -> BTreeSet<u8> {
    let words = scripts.lines().map(|line| line.split(' ').collect());
    let numbers = words.filter_map(|words: Vec<&str>| match words[..] {
        [call, .., "refused", number, _] if call == word => Some(number.parse().unwrap()),
        _ => None,
    });
    numbers.collect()
}

#[test]
fn every_refusal_of_a_session_is_met() {
    let record = [3, 4, 6, 7, 8, 13];
    let calls: [(&str, &[u8]); 6] = [
        ("cut", &[12, 22]),
        ("deliver", &[12, 14, 23, 24]),
        ("mend", &[12, 23, 25, 26]),
        ("status", &[12, 14]),
        ("run", &[23]),
        ("route", &[14, 23]),
    ];
    for [_, _, _, scripts, ..] in corpora() {
        for (word, own) in calls {
            let expected = record.iter().chain(own).copied().collect();
            assert_eq!(script_refusals(&scripts.listing, word), expected, "{word}");
        }
        // A script's mesh is that of an accepted book.
        let starts = script_refusals(&scripts.listing, "start");
        assert_eq!(starts, BTreeSet::from([13]));
    }
}

#[test]
fn every_refusal_after_a_carry_over_is_met() {
    // All zeros are 3.
    let calls: [(&str, &[u8]); 6] = [
        ("cut", &[3, 12, 22]),
        ("deliver", &[3, 12, 14, 23, 24]),
        ("mend", &[3, 12, 23, 25, 26]),
        ("status", &[3, 12, 14]),
        ("run", &[3, 23]),
        ("route", &[3, 14, 23]),
    ];
    for [_, _, _, _, _, upgrades, ..] in corpora() {
        for (word, expected) in calls {
            let expected = expected.iter().copied().collect();
            let met = script_refusals(&upgrades.listing, word);
            assert_eq!(met, expected, "{word}");
        }
    }
}

#[test]
fn every_mesh_on_5_nodes_is_planned_and_each_planned_one_is_listed() {
    // So many graphs on 5 nodes are whole, and whole without any one link.
    let planned = 253;
    for [_, _, plannings, _, listings, ..] in corpora() {
        let lines: Vec<&str> = plannings.listing.lines().collect();
        let on_5_nodes = |case: &&[&str]| case[0].split(' ').nth(2) == Some("5");
        let cases: Vec<&[&str]> = lines.chunks(4).filter(on_5_nodes).collect();
        let accepted = cases.iter().filter(|case| case[1] == "plan accepted");
        assert!(cases.len() >= 1_024);
        assert!(accepted.count() >= planned);
        assert!(count_lines(&listings.listing, "mesh 5 ") >= planned);
    }
}

/// How many lengths of a route are above 0, and how many are not known.
fn known_and_not_known<'a>(lengths: impl Iterator<Item = &'a str>) -> (usize, usize) {
    let (not_known, known): (Vec<&str>, Vec<&str>) = lengths
        .filter(|length| *length != "0")
        .partition(|length| *length == "-");
    (known.len(), not_known.len())
}

/// The route length in a status line.
fn of_status(line: &str) -> Option<&str> {
    match line.split(' ').collect::<Vec<_>>()[..] {
        ["status", _, _, "state", _, "busy", _, "route", length] => Some(length),
        _ => None,
    }
}

/// The route length in a cut line of a book to list.
fn of_cut(line: &str) -> Option<&str> {
    line.strip_prefix("cut ")?.split(' ').nth(4)
}

#[test]
fn route_lengths_are_known_and_not_known() {
    for [_, _, _, scripts, listings, ..] in corpora() {
        let lengths = scripts.listing.lines().filter_map(of_status);
        let (known, not_known) = known_and_not_known(lengths);
        assert!(known >= 1_000 && not_known >= 1_000, "{known} {not_known}");
        assert!(scripts.listing.contains(" busy 0 route 16776960\n"));
        let lengths = listings.listing.lines().filter_map(of_cut);
        let (known, not_known) = known_and_not_known(lengths);
        assert!(known >= 3_000 && not_known >= 3_000, "{known} {not_known}");
    }
}

#[test]
fn four_lists_have_thousands_of_calls() {
    for [_, _, _, scripts, ..] in corpora() {
        let is_long = |case: &&Case| match case {
            Case::Script(script) => script.calls.len() >= 4_000,
            _ => false,
        };
        assert_eq!(scripts.cases.iter().filter(is_long).count(), 4);
    }
}

#[test]
fn duct_queries_are_answered_and_leave_the_rest() {
    for [_, _, _, _, _, _, queries, ..] in corpora() {
        let listing = &queries.listing;
        assert!(count_lines(listing, "sharing accepted") >= 400);
        assert!(count_lines(listing, "sharing refused 11 ") >= 150);
        assert!(count_lines(listing, "sharing refused 12 ") >= 200);
        assert!(listing.contains("\ncount 256\n"));
        assert!(listing.contains("\nsharing refused 11 256\n"));
        let lines: Vec<&str> = listing.lines().collect();
        for query in lines.chunks(4) {
            let count: usize = query[2].strip_prefix("count ").unwrap().parse().unwrap();
            let entries: Vec<&str> = query[3].split(' ').skip(1).collect();
            assert!(entries[count..].iter().all(|entry| *entry == "42405"));
            assert!(!entries[..count].contains(&"42405"));
            assert_eq!(count > 0, query[1] == "sharing accepted");
        }
    }
}

/// The words of a line after its first.
fn values(line: &str) -> Vec<&str> {
    line.split(' ').skip(1).collect()
}

#[test]
fn collection_routes_have_their_tree_links_and_leave_the_rest() {
    for [.., collections, _, _] in corpora() {
        let listing = &collections.listing;
        assert!(count_lines(listing, "collect accepted") >= 650);
        assert!(count_lines(listing, "collect refused 6 0") >= 115);
        assert!(count_lines(listing, "collect refused 11 ") >= 100);
        assert!(count_lines(listing, "collect refused 20 ") >= 300);
        assert!(listing.contains("\ncollect refused 11 127\n"));
        let lines: Vec<&str> = listing.lines().collect();
        for route in lines.chunks(5) {
            let count: usize = values(route[2])[0].parse().unwrap();
            let (tree, entries) = (values(route[3]), values(route[4]));
            assert!(entries[count..].iter().all(|entry| *entry == "165"));
            assert!(!entries[..count].contains(&"165"));
            assert_eq!(tree.len(), count / 2);
            assert_eq!(count > 0, route[1] == "collect accepted");
        }
    }
}

#[test]
fn every_drill_is_asked_for_in_two_ways_and_written() {
    for [.., inputs, meshes] in corpora() {
        for middles in 1..=62 {
            let line = format!("asked {middles}");
            let asked = inputs.listing.lines().filter(|asked| *asked == line);
            assert_eq!(asked.count(), 2);
        }
        let asked = inputs.listing.lines().skip(1).step_by(2);
        let refused = asked.filter(|line| *line == "asked refused").count();
        assert_eq!(refused, inputs.cases.len() - 2 * 62);
        let listing = &meshes.listing;
        assert_eq!(count_lines(listing, "check accepted"), 62 + 6 * 3);
        assert_eq!(count_lines(listing, "plan accepted"), 62 + 6 * 3);
        assert_eq!(count_lines(listing, "start accepted"), 62 + 6 * 3);
        assert_eq!(count_lines(listing, "write accepted"), 62 + 6);
        assert_eq!(count_lines(listing, "write refused 11 "), 6 * 2);
        assert_eq!(count_lines(listing, "check refused 3 0"), 194 + 3);
    }
}

#[test]
fn links_of_carried_over_sessions_have_no_duct() {
    for [_, _, _, _, _, upgrades, ..] in corpora() {
        for case in &upgrades.cases {
            let Case::Upgrade(upgrade) = case else {
                continue;
            };
            let (session, _) = upgrade.old.carry_over();
            assert!(session.mesh.links.iter().all(|link| link.duct == 0));
        }
    }
}

#[test]
fn the_listing_has_no_trailing_spaces() {
    for part in &corpora()[1] {
        assert!(part.listing.is_ascii());
        assert!(part.listing.ends_with('\n'));
        assert!(part.listing.lines().all(|line| line == line.trim()));
    }
}
