//! What `tmb help` shows.

use crate::files::shown;
use crate::refusals::Ending;
use std::ffi::OsStr;

/// A command's name, its usage and what it does in a line, and its page.
pub struct Page {
    pub name: &'static str,
    pub usage: &'static str,
    pub line: &'static str,
    pub text: &'static str,
}

pub const PAGES: [Page; 9] = [
    Page {
        name: "build",
        usage: "tmb build JOB PLAIN OUT",
        line: "marks a plain mesh and stores it",
        text: "usage: tmb build JOB PLAIN OUT

Marks a plain mesh and stores it as round 0 of the job. Prints what check says
of it.

  JOB     the job's number, from 0 to 4294967295
  PLAIN   the plain mesh, a text of at most 16 MiB
  OUT     the stored mesh that is written

A plain mesh is a text of lines:

  v x y z     a vertex by its three coordinates, multiples of 32 from -32736
              to 32736; vertices are numbered from 0 as they come
  p a b c d   a piece by the numbers of its four corners

Lines of both sorts may be mixed. What follows a # is a comment; empty lines
are skipped.

Every piece is stored right-handed: of a left-handed one the last two corners
are exchanged before it is marked. It keeps its place among the pieces.

Every vertex has to be a corner of each piece that it touches: one that lies on
an edge, in a face or inside of a piece and isn't one of its corners gets 23.
",
    },
    Page {
        name: "check",
        usage: "tmb check MESH",
        line: "judges a stored mesh",
        text: "usage: tmb check MESH

Judges a stored mesh. Prints job, round, all vertices, all records and check's
three figures: the leaves, which are the records that are not cut, the greatest
generation of a leaf (deepest), and the summed sixfold volume of the leaves
(sixfold).

With refusal 10 the message names the record and the two vertices of the edge
that hangs, with 22 the first base record that is left-handed, with 23 the
first base vertex that hangs on a base record, and where on it the vertex lies.
",
    },
    Page {
        name: "select",
        usage: "tmb select MESH OUT NUMBER...",
        line: "chooses pieces for the mesh's round",
        text: "usage: tmb select MESH OUT NUMBER...

Writes a selection with the mesh's own job and round. What refine would refuse
is refused at once, and no selection is written.

  MESH     a stored mesh
  OUT      the selection that is written
  NUMBER   a leaf's number as tmb list shows it; the numbers rise

Without a number the selection is empty: refine raises the round and cuts
nothing. A selection is good for this round alone: it expires as soon as a
refinement or a request is accepted. To name cut records, which can be taken
back, see tmb help select --back.
",
    },
    Page {
        name: "refine",
        usage: "tmb refine MESH SELECTION OUT",
        line: "cuts chosen pieces, closes the mesh",
        text: "usage: tmb refine MESH SELECTION OUT

Cuts the pieces that the selection names, and further ones until no edge hangs.
The round rises by 1. Prints what check says of the refined mesh.

  MESH        a stored mesh
  SELECTION   a selection for its job and its round
  OUT         the refined mesh that is written; it may be MESH
",
    },
    Page {
        name: "list",
        usage: "tmb list MESH",
        line: "shows the pieces of a mesh",
        text: "usage: tmb list MESH

Shows a heading with job, round, all vertices, all records and check's three
figures, then each leaf: its number, its four corners, its refinement edge's
lower and higher vertex, its generation.

The lines are those of the proved list. The program tmb-list, which is installed
beside tmb, writes the same for a mesh on its standard input.
",
    },
    Page {
        name: "cuts",
        usage: "tmb cuts MESH",
        line: "shows the cut records of a mesh",
        text: "usage: tmb cuts MESH

Shows a heading with job, round, all vertices, all records, the number of cut
records and how many of them are ready, then each cut record: its number, its
four corners, the vertex it is cut at, its first child (the second is the next
record), its generation, and the word ready where both children are leaves.

Any of them may be named to be taken back. A vertex goes when every record that
is cut at it is ready and named.
",
    },
    Page {
        name: "select --back",
        usage: "tmb select --back MESH OUT NUMBER...|all",
        line: "chooses cuts for the mesh's round",
        text: "usage: tmb select --back MESH OUT NUMBER...|all

Writes a request, which names cut records, with the mesh's own job and round.
What take-back would refuse is refused at once, and no request is written.

  MESH     a stored mesh
  OUT      the request that is written
  NUMBER   a cut record's number as tmb cuts shows it; the numbers rise
  all      every cut record

Without a number the request is empty: take-back raises the round and takes
nothing back. A request is good for this round alone: it expires as soon as a
refinement or a request is accepted.
",
    },
    Page {
        name: "take-back",
        usage: "tmb take-back MESH REQUEST OUT",
        line: "takes chosen cuts back",
        text: "usage: tmb take-back MESH REQUEST OUT

Takes cuts back that the request names. A vertex that was made by a cut goes
when every record cut at it has two leaves as children and all those records
are named; the children go with it. Named records that don't meet this stay
cut. What remains closes up in its order, so numbers change. The round rises by
1. Prints what check says of the coarser mesh.

  MESH      a stored mesh
  REQUEST   a request for its job and its round, as tmb select --back writes it
  OUT       the coarser mesh that is written; it may be MESH

One run is one step. For the coarse mesh, repeat these two until the records
grow no fewer:

  tmb select --back MESH REQUEST all
  tmb take-back MESH REQUEST MESH

That is the base, unless pieces hold each other's cuts in a ring.
",
    },
    Page {
        name: "help",
        usage: "tmb help [COMMAND]",
        line: "shows this, or more about a command",
        text: "usage: tmb help [COMMAND]

Shows the commands, or more about one of them.
",
    },
];

const ALWAYS: &str = "
Files: - is standard input or standard output; only one input may be -. An
output file is written whole or not at all, and may be one of the inputs. After
a refusal the files stand as they were.

A refusal is one line on standard error: its number, what the number means, and
in brackets what was found, where that is plain.

Exit status: 0 accepted, 1 refused, 2 not carried out (wrong arguments, or a
file that can't be read or written).
";

/// The commands in a line each.
pub fn usage() -> String {
    let line = |page: &Page| format!("  {:42}{}\n", page.usage, page.line);
    let lines: String = PAGES.iter().map(line).collect();
    format!("usage:\n{}", lines.trim_end())
}

pub fn overview() -> String {
    format!(
        "tmb: casing meshes, refined and proved\n\n{}\n{ALWAYS}",
        usage()
    )
}

/// A command's page.
pub fn page(name: &OsStr) -> Result<&'static str, Ending> {
    let page = PAGES.iter().find(|page| name == page.name);
    page.map(|page| page.text)
        .ok_or_else(|| wrong_arguments(name))
}

/// The command is not known, or its arguments are not as many as they have to be.
pub fn wrong_arguments(name: &OsStr) -> Ending {
    Ending::Wrong(match PAGES.iter().find(|page| name == page.name) {
        Some(page) => format!("usage: {}", page.usage),
        None => format!("no such command: {}\n{}", shown(name), usage()),
    })
}
