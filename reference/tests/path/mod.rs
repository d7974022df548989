//! Demand 3's one simple path.

use reference::session::{Session, Wavelength, TAKEN};

/// The links taken on the wavelength.
pub fn taken(session: &Session, wavelength: Wavelength) -> Vec<u16> {
    let numbered = (0..).zip(session.floods[wavelength].states);
    let taken = numbered.filter(|(_, state)| *state == TAKEN);
    taken.map(|(link, _)| link).collect()
}

/// All links taken on the wavelength stand in a row from x to y, and no node is
/// met twice. Gives the row.
pub fn assert_one_path(session: &Session, wavelength: Wavelength, cut: u16) -> Vec<u16> {
    let (x, y) = session.primary_arc(wavelength, cut);
    let route = session.route(wavelength.number()).unwrap();
    let mut met = vec![x];
    for link in &route {
        let (end, begin) = session.primary_arc(wavelength, *link);
        assert_eq!(met.last(), Some(&begin));
        assert!(!met.contains(&end));
        met.push(end);
    }
    assert_eq!(met.last(), Some(&y));
    let mut sorted = route.clone();
    sorted.sort_unstable();
    assert_eq!(taken(session, wavelength), sorted);
    route
}
