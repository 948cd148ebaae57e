//! Cases with their listings, which the independent program made: the kept ones, and those in the folders that
//! PEASHUTTLE_LISTINGS and PEASHUTTLE_REREADS name.

use crate::common::{cases, cut, folders, listing_by_parts, reread_by_parts, GUARD};
use peashuttle::LISTING_ROOM;

const KEPT: &str = "../../tests/checks/cases";

/// `list` into a slice with room for all, and into one that is too short.
fn listed(input: &[u8], expected: &[u8]) {
    let mut out = vec![GUARD; LISTING_ROOM];
    assert_eq!(peashuttle::list(input, &mut out), expected.len());
    assert!(out.starts_with(expected));
    assert!(out[expected.len()..].iter().all(|&byte| byte == GUARD), "behind the listing the slice is as it was");
    let half = expected.len() / 2;
    out.fill(GUARD);
    assert_eq!(peashuttle::list(input, &mut out[..half]), expected.len());
    assert_eq!(out[..half], expected[..half]);
    assert!(out[half..].iter().all(|&byte| byte == GUARD), "nothing is written behind a short slice");
    assert_eq!(peashuttle::list(input, &mut []), expected.len());
}

#[test]
fn listings() {
    let all = cases(&folders("PEASHUTTLE_LISTINGS", &[KEPT]));
    assert!(!all.is_empty());
    for (name, input, expected) in all {
        listed(&input, &expected);
        assert!(listing_by_parts(&input) == expected, "{}", name.display());
    }
}

#[test]
fn rereads() {
    for (name, input, expected) in cases(&folders("PEASHUTTLE_REREADS", &[])) {
        assert!(reread_by_parts(&input) == expected, "{}", name.display());
    }
}

#[test]
fn saved_tracks_are_read_and_written_again() {
    for (name, input, expected) in cases(&folders("PEASHUTTLE_LISTINGS", &[KEPT])) {
        let Some(at) = expected.windows(5).position(|five| five == b"\n3001") else {
            continue;
        };
        let saved = &expected[at + 1..];
        let again = reread_by_parts(&[cut(&input).0, saved].concat());
        assert!(again == saved, "{}", name.display());
    }
}
