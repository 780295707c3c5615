//! Edges: which pixel of a line a coordinate stands for.

#[derive(Clone, Copy, Debug, PartialEq, Eq)]
pub enum Edge {
    Duplicate,
    Wrap,
    Mirror,
    None,
}

pub const EDGES: [Edge; 4] = [Edge::Duplicate, Edge::Wrap, Edge::Mirror, Edge::None];

impl Edge {
    pub fn of(number: u32) -> Option<Edge> {
        EDGES.get(number as usize).copied()
    }
}

/// The index below `size` that `c` stands for; none is a pixel of four zeros.
pub fn extend(c: i64, size: usize, edge: Edge) -> Option<usize> {
    let s = size as i64;
    let inside = match edge {
        Edge::Duplicate => c.clamp(0, s - 1),
        Edge::Wrap => c.rem_euclid(s),
        Edge::Mirror => {
            let m = c.rem_euclid(2 * s);
            if m < s {
                m
            } else {
                2 * s - 1 - m
            }
        }
        Edge::None if (0..s).contains(&c) => c,
        Edge::None => return None,
    };
    Some(inside as usize)
}

/// The line's value at any coordinate.
pub fn sample<T: Copy + Default>(line: &[T], c: i64, edge: Edge) -> T {
    extend(c, line.len(), edge).map_or(T::default(), |i| line[i])
}
