//! The forecast of one prefix: early and late, by trying everything where that is possible.

use crate::decide::Mesh;
use crate::search;
use crate::snapshot::Snapshot;
use crate::stable::{all_stable, combinations, extremes, Held};

/// Up to this many combinations are all tried.
const FEW: usize = 1024;

pub struct Outlook {
    pub early: Held,
    pub late: Held,
}

impl Outlook {
    /// The number of routers whose two rows differ.
    pub fn open(&self) -> usize {
        self.early.iter().zip(&self.late).filter(|(early, late)| early != late).count()
    }
}

pub fn forecast(snapshot: &Snapshot, prefix: usize) -> Outlook {
    let mesh = Mesh::of(snapshot, &snapshot.prefixes[prefix]);
    let (early, late) = if combinations(&mesh) <= FEW {
        extremes(&mesh, &all_stable(&mesh))
    } else {
        (search::early(&mesh), search::late(&mesh))
    };
    Outlook { early, late }
}
