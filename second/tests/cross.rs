//! The search of early and late against trying everything, on thousands of seeded prefixes; and what document 01
//! claims of stable assignments.

use second::decide::Mesh;
use second::random::{chain_early, chain_late, random};
use second::search;
use second::snapshot::{Prefix, Route, Snapshot};
use second::stable::*;

/// Compares both ways and checks the claims; returns the number of stable assignments.
fn compare(mesh: &Mesh) -> usize {
    let stable = all_stable(mesh);
    let (early, late) = extremes(mesh, &stable);
    assert!(is_stable(mesh, &early) && is_stable(mesh, &late));
    assert_eq!(search::early(mesh), early);
    assert_eq!(search::late(mesh), late);
    assert_eq!(early == late, stable.len() == 1, "settled exactly when no second one exists");
    let differing = early.iter().zip(&late).filter(|(early, late)| early != late).count();
    assert_ne!(differing, 1, "a lone differing router would have decided from the same routes");
    let mut standings: Vec<Vec<usize>> = stable.iter().map(|held| standings(mesh, held)).collect();
    standings.sort();
    standings.dedup();
    assert_eq!(standings.len(), stable.len(), "equal standings are equal assignments");
    stable.len()
}

/// Compares all prefixes of many snapshots; returns how many prefixes were settled and how many open.
fn compare_kind(kind: &str, seeds: std::ops::Range<u64>) -> (usize, usize) {
    let (mut settled, mut open) = (0, 0);
    for seed in seeds {
        let snapshot = random(seed, kind).expect("a kind");
        for prefix in &snapshot.prefixes {
            match compare(&Mesh::of(&snapshot, prefix)) {
                1 => settled += 1,
                _ => open += 1,
            }
        }
    }
    (settled, open)
}

#[test]
fn small_prefixes_agree() {
    let (settled, open) = compare_kind("small", 0..6000);
    assert!(settled > 5000, "{settled} settled, {open} open");
}

#[test]
fn open_prefixes_agree() {
    let (settled, open) = compare_kind("open", 0..1500);
    assert!(settled > 1000 && open > 500, "{settled} settled, {open} open");
}

/// A network of as many routers as the routes need.
fn around(mut routes: Vec<Route>) -> Snapshot {
    routes.sort_by_key(|route| (route.router, route.peer));
    let routers = 1 + routes.iter().map(Route::owner).max().unwrap_or(0);
    let distances = (0..routers).map(|from| (0..routers).map(|to| u32::from(from != to)).collect()).collect();
    let prefixes = vec![Prefix { address: 0, length: 0, routes }];
    Snapshot { ids: (1..=routers as u32).collect(), distances, prefixes }
}

#[test]
fn short_chains_agree() {
    for (movers, routes) in [(2, 2), (3, 5), (3, 6), (4, 11), (4, 12), (5, 14)] {
        for chain in [chain_early, chain_late] {
            let snapshot = around(chain(movers, routes));
            compare(&Mesh::of(&snapshot, &snapshot.prefixes[0]));
        }
    }
}

/// Too many combinations to try: both searches must still end in stable assignments, early nowhere after late.
#[test]
fn large_prefixes_end_in_stable_assignments() {
    for kind in ["chain-early", "chain-late", "limits", "tied"] {
        let snapshot = random(7, kind).expect("a kind");
        for prefix in &snapshot.prefixes {
            let mesh = Mesh::of(&snapshot, prefix);
            let (early, late) = (search::early(&mesh), search::late(&mesh));
            assert!(is_stable(&mesh, &early) && is_stable(&mesh, &late));
            let (early, late) = (standings(&mesh, &early), standings(&mesh, &late));
            assert!(early.iter().zip(&late).all(|(early, late)| early <= late));
        }
    }
}
