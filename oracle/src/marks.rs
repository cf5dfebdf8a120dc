//! Which shape made a density, from the request's words: of the shapes that
//! `lecden` worked out at the height, the first whose value is the density; gap
//! where that is zero.

/// The marks' names by their numbers.
const NAMES: [&str; 7] = [
    "none",
    "D-E tail",
    "E parabola",
    "valley line",
    "F1",
    "F2",
    "gap",
];

pub const GAP: u32 = 6;

pub fn name(mark: u32) -> &'static str {
    NAMES.get(mark as usize).copied().unwrap_or("no mark")
}

/// What the routed `lecden` had at a height: D-E tail, E, valley, F1, F2.
#[derive(Clone, Copy)]
pub struct Shapes {
    pub worked: [bool; 5],
    pub values: [f32; 5],
}

impl Shapes {
    /// The mark; a number that no mark has where no shape made the density.
    pub fn mark(&self, density: f32) -> u32 {
        if density == 0.0 {
            return GAP;
        }
        let first = (0..5).find(|&i| self.makes(i, density));
        first.map_or(u32::MAX, |i| i as u32 + 1)
    }

    /// Whether several shapes have a density that is not zero.
    pub fn tied(&self, density: f32) -> bool {
        density != 0.0 && (0..5).filter(|&i| self.makes(i, density)).count() > 1
    }

    fn makes(&self, i: usize, density: f32) -> bool {
        self.worked[i] && self.values[i] == density
    }
}

#[cfg(test)]
mod tests {
    use super::*;

    #[test]
    fn the_first_worked_out() {
        let at = |worked, values| Shapes { worked, values };
        let shapes = at([false, true, true, true, true], [9.0, 4.0, 0.0, 9.0, 9.0]);
        assert_eq!(name(shapes.mark(9.0)), "F1");
        assert_eq!(name(shapes.mark(4.0)), "E parabola");
        assert_eq!(name(shapes.mark(0.0)), "gap");
        assert_eq!(name(shapes.mark(5.0)), "no mark");
    }
}
