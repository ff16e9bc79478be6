//! Which vertex hangs on which piece, and where: looked for only to be said, once a service has given 23.

/// A place by its three coordinates.
type Place = [i16; 3];

/// "A vertex hang[s] on a piece if it lies in the closed piece and isn't one of its corners."
pub struct Hanging {
    pub vertex: usize,
    pub piece: usize,
    /// The two ends of the edge that it lies on, the three corners of the face that it lies in, or all four of
    /// the piece that it lies inside: in rising number.
    between: Vec<u16>,
}

impl Hanging {
    /// The first vertex that hangs, and the first piece that it hangs on.
    pub fn first(places: &[Place], pieces: &[[u16; 4]]) -> Option<Hanging> {
        let on = |vertex: usize, piece: usize| {
            Some(Hanging {
                vertex,
                piece,
                between: between(places, vertex, pieces[piece])?,
            })
        };
        let on_any = |vertex| (0..pieces.len()).find_map(|piece| on(vertex, piece));
        (0..places.len()).find_map(on_any)
    }

    /// Where it lies; the piece has this name.
    pub fn lies(&self, piece: &str) -> String {
        match self.between[..] {
            [one, other] => format!("lies on the edge of vertices {one} and {other} of {piece}"),
            [one, other, third] => {
                format!("lies in the face of vertices {one}, {other} and {third} of {piece}")
            }
            _ => format!("lies inside {piece}"),
        }
    }

    /// What to do about it. Inside a piece it is the corner of another that overlaps it, split or not.
    pub fn mend(&self) -> &'static str {
        match self.between.len() {
            4 => "move the vertex, so that it lies inside no piece",
            _ => {
                "split that piece there or move the vertex, so that it is a corner of every piece that it \
                 touches"
            }
        }
    }
}

/// The corners that a vertex lies between; none if it lies outside or is one of them.
fn between(places: &[Place], vertex: usize, corners: [u16; 4]) -> Option<Vec<u16>> {
    if corners.map(usize::from).contains(&vertex) {
        return None;
    }
    let piece = corners.map(|corner| places.get(usize::from(corner)).copied().unwrap_or_default());
    let whole = determinant(piece).signum();
    let mut between = Vec::new();
    for (slot, corner) in corners.into_iter().enumerate() {
        let mut replaced = piece;
        replaced[slot] = places[vertex];
        match determinant(replaced).signum() * whole {
            -1 => return None,
            // In the plane of the face without this corner.
            0 => {}
            _ => between.push(corner),
        }
    }
    between.sort_unstable();
    Some(between)
}

/// "Corners 1, 2, 3 less corner 0"; a difference is below 2^16, so six products of three are below 2^51.
fn determinant([origin, one, two, three]: [Place; 4]) -> i64 {
    let less = |place: Place, axis: usize| i64::from(place[axis]) - i64::from(origin[axis]);
    let [a, b, c] = [one, two, three].map(|place| [0, 1, 2].map(|axis| less(place, axis)));
    a[0] * (b[1] * c[2] - b[2] * c[1]) - a[1] * (b[0] * c[2] - b[2] * c[0])
        + a[2] * (b[0] * c[1] - b[1] * c[0])
}
