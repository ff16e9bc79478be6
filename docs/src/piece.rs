//! The marked piece: slots, edge codes, faces, marks, types and cutting.

use crate::mesh::{Record, NO_NUMBER};

/// "Edge codes by slots: 0 is 01, 1 is 02, 2 is 03, 3 is 12, 4 is 13, 5 is 23."
pub const EDGES: [[usize; 2]; 6] = [[0, 1], [0, 2], [0, 3], [1, 2], [1, 3], [2, 3]];

/// "By the marks of faces acd and bcd the type is: P, ...; A, ...; O, ...; M, ..."
#[derive(Debug, PartialEq, Eq, Clone, Copy)]
pub enum Type {
    P,
    A,
    O,
    M,
}

/// "Edge codes by slots": the two slots of a code; nothing for a code above 5.
pub fn slots(code: u8) -> Option<[usize; 2]> {
    EDGES.get(usize::from(code)).copied()
}

/// "Edge codes by slots": the code of the edge between two slots; nothing if they are no edge.
pub fn code(one: usize, other: usize) -> Option<u8> {
    let wanted = [one.min(other), one.max(other)];
    (0..6).find(|&code| slots(code) == Some(wanted))
}

/// "Face i is the face without slot i": whether the edge lies on that face.
pub fn on_face(code: u8, face: usize) -> bool {
    slots(code).is_some_and(|slots| !slots.contains(&face))
}

/// "Let the refinement edge be ab and the other corners c, d": the two slots c and d.
fn other_slots(a: usize, b: usize) -> Option<[usize; 2]> {
    let [p, q] = EDGES
        .into_iter()
        .find(|slots| !slots.contains(&a) && !slots.contains(&b))?;
    Some([p, q])
}

/// "An edge code above 5, a mark not on its face, or a refinement face not marked with the
/// refinement edge": whether a record is free of all three.
pub fn properly_marked(record: &Record) -> bool {
    slots(record.edge).is_some()
        && (0..4).zip(record.marks).all(|(face, mark)| {
            on_face(mark, face) && (!on_face(record.edge, face) || mark == record.edge)
        })
}

/// The two ends of an edge by vertex number, "lower and higher"; nothing for a code above 5.
pub fn ends(record: &Record, code: u8) -> Option<(u16, u16)> {
    let [one, other] = slots(code)?.map(|slot| record.corners[slot]);
    Some((one.min(other), one.max(other)))
}

/// "By the marks of faces acd and bcd the type is: P, (ac, bc) or (ad, bd); A, (ac, bd) or
/// (ad, bc); O, cd twice; M, cd once." Nothing if a mark isn't on its face.
pub fn type_of(record: &Record) -> Option<Type> {
    let [a, b] = slots(record.edge)?;
    let [c, d] = other_slots(a, b)?;
    let (ac, ad) = (code(a, c)?, code(a, d)?);
    let (bc, bd) = (code(b, c)?, code(b, d)?);
    let cd = code(c, d)?;
    // Face acd is the face without b, face bcd the one without a.
    let marks = (record.marks[b], record.marks[a]);
    if marks == (ac, bc) || marks == (ad, bd) {
        Some(Type::P)
    } else if marks == (ac, bd) || marks == (ad, bc) {
        Some(Type::A)
    } else if marks == (cd, cd) {
        Some(Type::O)
    } else if [(cd, bc), (cd, bd), (ac, cd), (ad, cd)].contains(&marks) {
        Some(Type::M)
    } else {
        None
    }
}

/// **Cutting**: "Let w be the midpoint of the refinement edge, whose end of lower vertex number is
/// u and higher v. The first child has w in v's slot, the second has w in u's slot; all else stays
/// in its slot." Nothing for codes that no piece can have.
pub fn children(parent: &Record, w: u16) -> Option<[Record; 2]> {
    let [a, b] = slots(parent.edge)?;
    let [c, d] = other_slots(a, b)?;
    // By vertex number, not by slot.
    let (u, v) = if parent.corners[a] < parent.corners[b] {
        (a, b)
    } else {
        (b, a)
    };
    let type_p = type_of(parent)? == Type::P;
    // In type P the marks of faces acd and bcd share c or share d.
    let shared = if parent.marks[b] == code(a, c)? { c } else { d };

    let child = |kept: usize, replaced: usize| -> Option<Record> {
        let mut corners = parent.corners;
        corners[replaced] = w;
        let mut marks = [0; 4];
        // "The inherited face keeps its mark": it is the face without w.
        marks[replaced] = parent.marks[replaced];
        // "A cut face is marked on the edge opposite w."
        marks[c] = code(kept, d)?;
        marks[d] = code(kept, c)?;
        // "The new face wcd is marked cd; if the parent is P with the flag set, it is marked from w
        // to the corner that the two other marked edges share."
        marks[kept] = if type_p && parent.flag != 0 {
            code(replaced, shared)?
        } else {
            code(c, d)?
        };
        Some(Record {
            corners,
            // "... its mark, which becomes the child's refinement edge."
            edge: parent.marks[replaced],
            marks,
            // "The children's flag is set exactly if the parent is P with the flag unset."
            flag: u8::from(type_p && parent.flag == 0),
            // "Their generation is the parent's plus 1." A parent of 255 is refused in any case.
            generation: parent.generation.saturating_add(1),
            first_child: NO_NUMBER,
        })
    };
    Some([child(u, v)?, child(v, u)?])
}
