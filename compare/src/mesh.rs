//! Tables as they are given, and lawful meshes seen as half-edges.
//!
//! A corner is also the half-edge that leaves it: the side of its quad to the next corner. An even one is an on-edge,
//! an odd one an off-edge, and number `h` is edge or off-edge `h / 2`.

use crate::refusal::Refusal;

pub const MOST_QUADS: usize = 1_048_576;
pub const INFINITE: u32 = 65_535;
pub const MOST_SHARP: u32 = 4_096;

/// The four tables of a mesh, which may be anything.
#[derive(Clone, Debug, Default, PartialEq, Eq)]
pub struct Tables {
    pub corners: Vec<u32>,
    pub friends: Vec<u32>,
    pub marks: Vec<u32>,
    pub starts: Vec<u32>,
}

#[derive(Clone, Copy, Debug, PartialEq, Eq)]
pub struct Counts {
    pub quads: usize,
    pub points: usize,
}

impl Tables {
    pub fn counts(&self) -> Counts {
        Counts { quads: self.corners.len() / 4, points: self.starts.len() }
    }

    /// Tables of zeros with room for this many quads and points.
    pub fn blank(Counts { quads, points }: Counts) -> Self {
        Self {
            corners: vec![0; 4 * quads],
            friends: vec![0; 2 * quads],
            marks: vec![0; 2 * quads],
            starts: vec![0; points],
        }
    }

    pub fn judged(self) -> Result<Mesh, Refusal> {
        Mesh::try_from(self)
    }

    /// The corner after one step over the off-edge at `corner`. The tables need to hold numbers in range.
    pub fn step(&self, corner: usize) -> usize {
        2 * self.friends[off_edge_at(corner)] as usize + corner % 2
    }
}

pub fn next(h: usize) -> usize {
    h - h % 4 + (h + 1) % 4
}

pub fn previous(h: usize) -> usize {
    h - h % 4 + (h + 3) % 4
}

pub fn diagonal(corner: usize) -> usize {
    next(next(corner))
}

/// The off-edge of which the corner is an end.
pub fn off_edge_at(corner: usize) -> usize {
    if corner % 2 == 1 { corner / 2 } else { previous(corner) / 2 }
}

/// The other end of the off-edge at the corner.
pub fn across(corner: usize) -> usize {
    if corner % 2 == 1 { next(corner) } else { previous(corner) }
}

/// A lawful mesh.
#[derive(Clone, Debug, PartialEq, Eq)]
pub struct Mesh {
    tables: Tables,
    /// By on-edge, the off-edge whose friend it is.
    partners: Vec<u32>,
}

impl TryFrom<Tables> for Mesh {
    type Error = Refusal;

    fn try_from(tables: Tables) -> Result<Self, Refusal> {
        crate::judge::judge(&tables)?;
        Ok(Self::trusted(tables))
    }
}

impl Mesh {
    /// For tables that are known to be lawful.
    pub(crate) fn trusted(tables: Tables) -> Self {
        let mut partners = vec![u32::MAX; tables.friends.len()];
        for (off_edge, &friend) in tables.friends.iter().enumerate() {
            partners[friend as usize] = off_edge as u32;
        }
        debug_assert!(partners.iter().all(|&o| o != u32::MAX));
        Self { tables, partners }
    }

    pub fn tables(&self) -> &Tables {
        &self.tables
    }

    pub fn into_tables(self) -> Tables {
        self.tables
    }

    pub fn counts(&self) -> Counts {
        self.tables.counts()
    }

    pub fn point(&self, corner: usize) -> usize {
        self.tables.corners[corner] as usize
    }

    /// The half-edge on the other side.
    pub fn twin(&self, h: usize) -> usize {
        if h % 2 == 1 { 2 * self.tables.friends[h / 2] as usize } else { 2 * self.partners[h / 2] as usize + 1 }
    }

    /// The on-edge of the two half-edges that are sides of one edge.
    pub fn on_edge(&self, h: usize) -> usize {
        if h % 2 == 1 { self.twin(h) / 2 } else { h / 2 }
    }

    pub fn off_edge(&self, h: usize) -> usize {
        if h % 2 == 1 { h / 2 } else { self.twin(h) / 2 }
    }

    /// The mark word of the edge of which the half-edge is a side.
    pub fn mark(&self, h: usize) -> u32 {
        self.tables.marks[self.off_edge(h)]
    }

    /// The corners at a point as its walk meets them.
    pub fn walk(&self, point: usize) -> impl Iterator<Item = usize> + '_ {
        let start = self.tables.starts[point] as usize;
        std::iter::successors(Some(start), move |&c| Some(self.tables.step(c)).filter(|&d| d != start))
    }

    pub fn valence(&self, point: usize) -> usize {
        self.walk(point).count()
    }
}
