//! What `tmb cuts` shows of an accepted mesh: read off the file, and nothing is decided here.

use crate::stored::{cut_records, job, round, Counts, Record};

/// A heading, then each cut record in rising number.
pub fn shown(mesh: &[u8]) -> String {
    let records = cut_records(mesh);
    let mut ready = 0;
    let mut lines = String::new();
    for &number in &records {
        let line = Line::of(mesh, number);
        ready += usize::from(line.is_ready);
        lines.push_str(&line.text());
    }
    let (counts, cut) = (Counts::of(mesh), records.len());
    format!(
        "job {} round {} vertices {} records {} cut {cut} ready {ready}\n{lines}",
        job(mesh),
        round(mesh),
        counts.vertices,
        counts.records
    )
}

/// What is said of a cut record.
struct Line {
    number: u16,
    record: Record,
    first_child: u16,
    /// The vertex that it is cut at: the one corner of its first child that is not its own.
    vertex: u16,
    /// Whether both children are leaves.
    is_ready: bool,
}

impl Line {
    fn of(mesh: &[u8], number: u16) -> Line {
        let record = Record::of(mesh, number.into());
        let first_child = record.first_child.unwrap_or(number);
        let first = usize::from(first_child);
        let children = [first, first + 1].map(|child| Record::of(mesh, child));
        let mut corners = children[0].corners.into_iter();
        let vertex = corners.find(|corner| !record.corners.contains(corner));
        Line {
            number,
            first_child,
            vertex: vertex.unwrap_or(0),
            is_ready: children.iter().all(|child| !child.is_cut()),
            record,
        }
    }

    fn text(&self) -> String {
        let [zero, one, two, three] = self.record.corners;
        format!(
            "{} {zero} {one} {two} {three} at {} first {} gen {}{}\n",
            self.number,
            self.vertex,
            self.first_child,
            self.record.generation,
            if self.is_ready { " ready" } else { "" }
        )
    }
}
