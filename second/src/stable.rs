//! Stable, early, late, straight from the definitions: every assignment that could be stable is tried.
//! Only for prefixes with few routes; `search` finds the two extremes of the others.

use crate::decide::Mesh;

/// An assignment: for each router the row it holds, or none.
pub type Held = Vec<Option<usize>>;

/// The router's own routes, and for each other router the route it holds, if it is that other's own.
pub fn available(mesh: &Mesh, held: &[Option<usize>], router: usize) -> Vec<usize> {
    let others = (0..mesh.routers()).filter(|&other| other != router);
    let theirs = others.filter_map(|other| held[other].filter(|&row| mesh.is_own(other, row)));
    let mut rows = mesh.own(router);
    rows.extend(theirs);
    rows
}

/// What a router takes from what is available to it.
pub fn decision(mesh: &Mesh, held: &[Option<usize>], router: usize) -> Option<usize> {
    mesh.choose(router, available(mesh, held, router))
}

pub fn is_stable(mesh: &Mesh, held: &[Option<usize>]) -> bool {
    (0..mesh.routers()).all(|router| decision(mesh, held, router) == held[router])
}

/// A router's contenders in its own order.
pub fn contenders(mesh: &Mesh, router: usize) -> Vec<usize> {
    let mut kept = (0..mesh.routes.len()).collect();
    mesh.steps_1_to_3(&mut kept);
    kept.retain(|&row| mesh.is_own(router, row));
    mesh.step_4(&mut kept);
    kept.sort_by_key(|&row| (mesh.routes[row].neighbour_id, mesh.routes[row].peer));
    kept
}

/// Each router's standing: the position of what it holds among its contenders, or past their end.
pub fn standings(mesh: &Mesh, held: &[Option<usize>]) -> Vec<usize> {
    let standing = |router: usize| {
        let list = contenders(mesh, router);
        list.iter().position(|&row| held[router] == Some(row)).unwrap_or(list.len())
    };
    (0..mesh.routers()).map(standing).collect()
}

/// How many combinations `all_stable` goes through: for each router one of its own routes, or none of them.
pub fn combinations(mesh: &Mesh) -> usize {
    let ways = (0..mesh.routers()).map(|router| mesh.own(router).len() + 1);
    ways.fold(1, usize::saturating_mul)
}

/// All stable assignments. What is available depends only on which own routes are held, so these are gone
/// through; each router's decision then says what it would hold, and the two must agree.
pub fn all_stable(mesh: &Mesh) -> Vec<Held> {
    let own: Vec<Vec<usize>> = (0..mesh.routers()).map(|router| mesh.own(router)).collect();
    let mut stable = Vec::new();
    for combination in 0..combinations(mesh) {
        if let Some(held) = completed(mesh, &own_held(&own, combination)) {
            assert!(is_stable(mesh, &held));
            stable.push(held);
        }
    }
    stable
}

/// The own routes held in one combination, its number read as digits, one for each router.
fn own_held(own: &[Vec<usize>], combination: usize) -> Held {
    let mut rest = combination;
    let digit = |rows: &Vec<usize>| {
        let digit = rest % (rows.len() + 1);
        rest /= rows.len() + 1;
        rows.get(digit).copied()
    };
    own.iter().map(digit).collect()
}

/// The assignment in which exactly these own routes are held, if the routers decide so.
fn completed(mesh: &Mesh, own_held: &[Option<usize>]) -> Option<Held> {
    let decides = |router: usize| {
        let row = decision(mesh, own_held, router);
        let own = row.filter(|&row| mesh.is_own(router, row));
        (own == own_held[router]).then_some(row)
    };
    (0..mesh.routers()).map(decides).collect()
}

/// The stable assignments that give every router its smallest and its largest standing.
pub fn extremes(mesh: &Mesh, stable: &[Held]) -> (Held, Held) {
    let all: Vec<Vec<usize>> = stable.iter().map(|held| standings(mesh, held)).collect();
    let column = |router: usize| all.iter().map(move |standing| standing[router]);
    let routers = 0..mesh.routers();
    let smallest: Vec<usize> = routers.clone().map(|router| column(router).min().expect("some are stable")).collect();
    let largest: Vec<usize> = routers.map(|router| column(router).max().expect("some are stable")).collect();
    let with = |wanted: &[usize]| {
        let found = all.iter().position(|standing| standing == wanted);
        stable[found.expect("the extreme standings are those of one stable assignment")].clone()
    };
    (with(&smallest), with(&largest))
}
