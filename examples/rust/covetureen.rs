//! The functions of libcovetureen.a for Rust: what each of them says is in include/covetureen.h. No function here can be called in a wrong
//! way: the lengths are those of the slices and arrays, and a result holds either what was stored or the refusal.

/// The most nodes and links of a mesh, and the most entries of a collection route.
pub const MOST_NODES: usize = 64;
pub const MOST_LINKS: usize = 256;
pub const MOST_ENTRIES: usize = 127;

/// The metres of a route with a link that is not measured.
const NOT_KNOWN: u32 = u32::MAX;

/// A refusal's number and place.
#[derive(Clone, Copy, Debug, PartialEq, Eq)]
pub struct Refusal {
    pub number: u8,
    pub place: usize,
}

/// A link: its ends, its length in metres (0: not measured), its fibre pair and its duct (0: none).
#[derive(Clone, Copy, Debug, Default, PartialEq, Eq)]
pub struct Link {
    pub low: u8,
    pub high: u8,
    pub metres: u16,
    pub pair: u32,
    pub duct: u16,
}

/// What the cut of a link leads to on wavelength 1.
#[derive(Clone, Debug, PartialEq, Eq)]
pub struct Recovery {
    pub route: Vec<u16>,
    pub deliveries: u16,
    /// None where a link of the route is not measured.
    pub metres: Option<u32>,
}

/// A survey: each part, known by its nodes, and the links without which no path joins their ends.
#[derive(Clone, Debug, PartialEq, Eq)]
pub struct Survey {
    pub parts: Vec<Vec<u8>>,
    pub bridges: Vec<u16>,
}

/// A collection route: its nodes, and the links of its tree.
#[derive(Clone, Debug, PartialEq, Eq)]
pub struct Collection {
    pub nodes: Vec<u8>,
    pub tree: Vec<u16>,
}

mod c {
    use super::{MOST_ENTRIES, MOST_LINKS, MOST_NODES};

    #[link(name = "covetureen", kind = "static")]
    extern "C" {
        pub fn covetureen_check(book: *const u8, length: usize, place: &mut usize) -> u8;
        pub fn covetureen_mesh(book: *const u8, length: usize, nodes: &mut u8, links: &mut u16, place: &mut usize) -> u8;
        pub fn covetureen_link(
            book: *const u8,
            length: usize,
            link: u16,
            low: &mut u8,
            high: &mut u8,
            metres: &mut u16,
            pair: &mut u32,
            duct: &mut u16,
            place: &mut usize,
        ) -> u8;
        pub fn covetureen_plan(book: *const u8, length: usize, directions: &mut [u8; MOST_LINKS], place: &mut usize) -> u8;
        pub fn covetureen_route(
            book: *const u8,
            length: usize,
            link: u16,
            route: &mut [u16; MOST_LINKS],
            count: &mut u16,
            deliveries: &mut u16,
            metres: &mut u32,
            place: &mut usize,
        ) -> u8;
        pub fn covetureen_survey(
            book: *const u8,
            length: usize,
            parts: &mut [u8; MOST_NODES],
            bridges: &mut [u8; MOST_LINKS],
            place: &mut usize,
        ) -> u8;
        pub fn covetureen_ducts(
            book: *const u8,
            length: usize,
            link: u16,
            links: &mut [u16; MOST_LINKS],
            count: &mut usize,
            place: &mut usize,
        ) -> u8;
        pub fn covetureen_collect(
            book: *const u8,
            length: usize,
            root: u8,
            route: &mut [u8; MOST_ENTRIES],
            tree: &mut [bool; MOST_LINKS],
            count: &mut usize,
            place: &mut usize,
        ) -> u8;
    }
}

fn answer(number: u8, place: usize) -> Result<(), Refusal> {
    match number {
        0 => Ok(()),
        _ => Err(Refusal { number, place }),
    }
}

/// Reads a book and checks it.
pub fn check(book: &[u8]) -> Result<(), Refusal> {
    let mut place = 0;
    let number = unsafe { c::covetureen_check(book.as_ptr(), book.len(), &mut place) };
    answer(number, place)
}

/// How many nodes and links the mesh of a book has.
pub fn mesh(book: &[u8]) -> Result<(u8, u16), Refusal> {
    let (mut nodes, mut links, mut place) = (0, 0, 0);
    let number = unsafe { c::covetureen_mesh(book.as_ptr(), book.len(), &mut nodes, &mut links, &mut place) };
    answer(number, place).map(|()| (nodes, links))
}

/// A link of the mesh.
pub fn link(book: &[u8], link: u16) -> Result<Link, Refusal> {
    let (mut l, mut place) = (Link::default(), 0);
    let number = unsafe {
        c::covetureen_link(
            book.as_ptr(),
            book.len(),
            link,
            &mut l.low,
            &mut l.high,
            &mut l.metres,
            &mut l.pair,
            &mut l.duct,
            &mut place,
        )
    };
    answer(number, place).map(|()| l)
}

/// A direction for each link, 0 past the last.
pub fn plan(book: &[u8]) -> Result<[u8; MOST_LINKS], Refusal> {
    let (mut directions, mut place) = ([0; MOST_LINKS], 0);
    let number = unsafe { c::covetureen_plan(book.as_ptr(), book.len(), &mut directions, &mut place) };
    answer(number, place).map(|()| directions)
}

/// What the cut of a link leads to.
pub fn route(book: &[u8], link: u16) -> Result<Recovery, Refusal> {
    let mut route = [0; MOST_LINKS];
    let (mut count, mut deliveries, mut metres, mut place) = (0, 0, 0, 0);
    let number = unsafe {
        c::covetureen_route(
            book.as_ptr(),
            book.len(),
            link,
            &mut route,
            &mut count,
            &mut deliveries,
            &mut metres,
            &mut place,
        )
    };
    answer(number, place).map(|()| Recovery {
        route: route[..count as usize].to_vec(),
        deliveries,
        metres: (metres != NOT_KNOWN).then_some(metres),
    })
}

/// The parts of the mesh, by rising lowest node, and its bridging links.
pub fn survey(book: &[u8]) -> Result<Survey, Refusal> {
    let (nodes, _) = mesh(book)?;
    let (mut parts, mut bridges, mut place) = ([0; MOST_NODES], [0; MOST_LINKS], 0);
    let number = unsafe { c::covetureen_survey(book.as_ptr(), book.len(), &mut parts, &mut bridges, &mut place) };
    let part = |lowest: u8| (0..nodes).filter(|v| parts[*v as usize] == lowest).collect();
    answer(number, place).map(|()| Survey {
        parts: (0..nodes).filter(|v| parts[*v as usize] == *v).map(part).collect(),
        bridges: (0..).zip(bridges).filter(|(_, bridge)| *bridge == 1).map(|(k, _)| k).collect(),
    })
}

/// The links that share the duct of a link.
pub fn ducts(book: &[u8], link: u16) -> Result<Vec<u16>, Refusal> {
    let (mut links, mut count, mut place) = ([0; MOST_LINKS], 0, 0);
    let number = unsafe { c::covetureen_ducts(book.as_ptr(), book.len(), link, &mut links, &mut count, &mut place) };
    answer(number, place).map(|()| links[..count].to_vec())
}

/// The collection route from a root.
pub fn collect(book: &[u8], root: u8) -> Result<Collection, Refusal> {
    let (mut route, mut tree) = ([0; MOST_ENTRIES], [false; MOST_LINKS]);
    let (mut count, mut place) = (0, 0);
    let number = unsafe {
        c::covetureen_collect(book.as_ptr(), book.len(), root, &mut route, &mut tree, &mut count, &mut place)
    };
    answer(number, place).map(|()| Collection {
        nodes: route[..count].to_vec(),
        tree: (0..).zip(tree).filter(|(_, of_tree)| *of_tree).map(|(k, _)| k).collect(),
    })
}
