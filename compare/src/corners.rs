//! Values on corners, carried to the next level.

use crate::mesh::{Mesh, next, previous};
use crate::refusal::{Cause, Refusal, refuse_at};
use crate::values::Rowed;

/// A value of which middles are made.
pub trait CornerValue: Rowed {
    fn middle(self, other: Self) -> Self;
}

/// Two texture numbers.
#[derive(Clone, Copy, Debug, PartialEq)]
pub struct Texture([f32; 2]);

impl Texture {
    pub const LIMIT: f32 = 65_536.0;
}

impl Rowed for Texture {
    type Row = [f32; 2];

    fn from_row(row: [f32; 2]) -> Result<Self, Refusal> {
        // Neither a NaN nor an infinity is in the range.
        let within = -Self::LIMIT..=Self::LIMIT;
        refuse_at(Cause::PastLimit, row.iter().position(|x| !within.contains(x)))?;
        Ok(Self(row))
    }

    fn row(self) -> [f32; 2] {
        self.0
    }
}

impl CornerValue for Texture {
    fn middle(self, other: Self) -> Self {
        Self([0, 1].map(|k| (self.0[k] + other.0[k]) * 0.5))
    }
}

/// Three bytes.
#[derive(Clone, Copy, Debug, PartialEq, Eq)]
pub struct Colour([u8; 3]);

impl Rowed for Colour {
    type Row = [u8; 3];

    fn from_row(row: [u8; 3]) -> Result<Self, Refusal> {
        Ok(Self(row))
    }

    fn row(self) -> [u8; 3] {
        self.0
    }
}

impl CornerValue for Colour {
    fn middle(self, other: Self) -> Self {
        Self([0, 1, 2].map(|k| ((u16::from(self.0[k]) + u16::from(other.0[k])) / 2) as u8))
    }
}

/// The corner values of the refined level, quad by quad.
pub fn corner_values<K: CornerValue>(old: &[K]) -> Vec<K> {
    let centres: Vec<K> =
        old.chunks_exact(4).map(|quad| quad[0].middle(quad[1]).middle(quad[2].middle(quad[3]))).collect();
    old.iter()
        .enumerate()
        .flat_map(|(c, &value)| [value, value.middle(old[next(c)]), centres[c / 4], old[previous(c)].middle(value)])
        .collect()
}

/// Whether the two sides of the edge of a half-edge agree.
pub fn agree<K: CornerValue + PartialEq>(mesh: &Mesh, values: &[K], h: usize) -> bool {
    let twin = mesh.twin(h);
    values[h] == values[next(twin)] && values[next(h)] == values[twin]
}

#[cfg(test)]
mod tests {
    use super::*;
    use crate::generate::lawful_samples;
    use crate::random::Random;

    #[test]
    fn colours_round_down() {
        let middle = Colour([255, 1, 0]).middle(Colour([255, 2, 1]));
        assert_eq!(middle, Colour([255, 1, 0]));
    }

    #[test]
    fn texture_limits() {
        assert!(Texture::from_row([65_536.0, -65_536.0]).is_ok());
        assert_eq!(Texture::from_row([0.0, 65_536.01]), Err(Cause::PastLimit.at(1)));
        assert_eq!(Texture::from_row([f32::NAN, f32::NAN]), Err(Cause::PastLimit.at(0)));
        assert_eq!(Texture::from_row([-0.0, f32::NEG_INFINITY]), Err(Cause::PastLimit.at(1)));
    }

    #[test]
    fn a_quad_of_colours() {
        let old = [0, 10, 21, 31].map(|x| Colour([x; 3]));
        let new: Vec<u8> = corner_values(&old).into_iter().map(|x| x.row()[0]).collect();
        assert_eq!(new, [0, 5, 15, 15, 10, 15, 15, 5, 21, 26, 15, 15, 31, 15, 15, 26]);
    }

    #[test]
    fn seams_that_met_still_meet() {
        let mut random = Random::new(41);
        for mesh in lawful_samples(&mut random, 60) {
            let quads = mesh.counts().quads;
            // One value for each point, but for a few corners: those make seams.
            let of_point: Vec<_> =
                (0..mesh.counts().points).map(|_| Colour([0; 3].map(|_| random.word() as u8))).collect();
            let old: Vec<_> = (0..4 * quads)
                .map(|c| if random.one_in(5) { Colour([random.word() as u8; 3]) } else { of_point[mesh.point(c)] })
                .collect();
            let new = corner_values(&old);
            let refined = mesh.refined();
            for h in 0..4 * quads {
                assert!(agree(&refined, &new, 4 * h + 1));
                if agree(&mesh, &old, h) {
                    assert!(agree(&refined, &new, 4 * h) && agree(&refined, &new, 4 * next(h) + 3));
                }
            }
        }
    }
}
