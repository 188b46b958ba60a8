//! A junction with its heightmap.
use super::Vec2;
use crate::Junction;

/// A heightmap: `height` rows of `width` bytes, 0 at the junction's `min_z` and 255 at its `max_z`.
#[derive(Debug, Clone, PartialEq, Eq, Default)]
#[allow(missing_docs)]
pub struct Heightmap {
    pub width: u8,
    pub height: u8,
    /// Row by row: `width * height` of them, or writing is refused with 12.
    pub values: Vec<u8>,
}

impl Heightmap {
    /// A row.
    ///
    /// # Panics
    /// Where the values have no such row.
    pub fn row(&self, y: usize) -> &[u8] {
        let width = self.width as usize;
        &self.values[y * width..(y + 1) * width]
    }
}

/// A junction.
#[derive(Debug, Clone, PartialEq)]
#[allow(missing_docs)]
pub struct PathJunction {
    /// The corner of the heightmap where x and y are least.
    pub position: Vec2,
    pub min_z: f32,
    pub max_z: f32,
    pub heightmap: Heightmap,
}

impl PathJunction {
    pub(super) fn of(j: &Junction, values: &[u8]) -> PathJunction {
        PathJunction {
            position: j.corner.into(),
            min_z: j.min_z,
            max_z: j.max_z,
            heightmap: Heightmap {
                width: j.width,
                height: j.height,
                values: values.to_vec(),
            },
        }
    }

    pub(super) fn entry(&self) -> Junction {
        Junction::new(
            self.position.into(),
            [self.min_z, self.max_z],
            self.heightmap.width,
            self.heightmap.height,
        )
    }
}
