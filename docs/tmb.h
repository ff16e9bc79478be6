/*
 * The C functions of libstation.a, which ./install makes of crates/station_c and puts below lib.
 *
 * None of them keeps anything between calls or asks for memory: what a call works with stands on its
 * stack, of which it takes less than 256 KiB.
 */
#ifndef TMB_H
#define TMB_H

#include <stddef.h>
#include <stdint.h>

#ifdef __cplusplus
extern "C" {
#endif

/*
 * What check gives back.
 *
 * number is 0 on acceptance; else the first rule broken, in this order, names the refusal:
 *
 *    0  accepted
 *    1  under 20 bytes, or length is not 20 + 10 * vertices + 17 * records
 *    2  wrong mark or version, or byte 19 not 0
 *    3  a count beyond its bounds, or base above all
 *    4  base coordinate off the grid, base parent not 65,535, two base vertices at one place; made
 *       vertex without p < q < its own number, not exactly halfway, or a parent pair used twice
 *    5  base record with equal corners, a corner not in the base, sixfold volume 0, generation or
 *       flag not 0
 *   22  a base record with a negative value: the determinant of three differences, corners 1, 2, 3
 *       less corner 0, which is positive for right-handed; its absolute value is the sixfold volume
 *    6  base record with an edge code above 5, a mark not on its face, or a refinement face not
 *       marked with the refinement edge
 *    7  a face in three base records, two base records with the same four corners, or a shared face
 *       with two marks
 *    8  a base vertex in no base record
 *   23  a base vertex that lies in a closed base piece and isn't one of its corners: on an edge of a
 *       base record, in a face of it or inside, by exact determinants. It lies there exactly when
 *       none of the four values that the record has with one corner replaced by the vertex is
 *       negative. Pieces that overlap with no vertex inside one another are not judged
 *    9  a cut record whose children aren't what cutting gives, or don't have greater numbers; a
 *       record beyond the base that isn't the child of exactly one; a made vertex that is the
 *       midpoint of no cut record's refinement edge; a generation above 15
 *   10  a hanging edge
 */
struct tmb_report {
    uint64_t number;
    uint64_t leaves;  /* on acceptance the number of leaves; with a refusal 0 */
    uint64_t deepest; /* on acceptance the greatest leaf generation; with a refusal 0 */
    uint64_t sixfold; /* on acceptance the summed sixfold volume of the leaves; with a refusal 0 */
    uint64_t record;  /* with 10 the record of the first leaf edge found hanging, by record and then
                         edge code; with any other answer 0 */
    uint64_t edge;    /* with 10 the edge code, 0 to 5, of that edge; with any other answer 0 */
};

/*
 * Check judges a stored mesh: the length bytes at mesh, which are only read. Every byte string gets
 * an answer. mesh is not NULL, also where length is 0.
 */
struct tmb_report tmb_check(const uint8_t *mesh, size_t length);

/*
 * Build marks a plain mesh and stores it: a job number, coordinate_count coordinates, three a vertex,
 * and corner_count corners, four a piece, which are only read. Every piece is stored right-handed: of
 * a left-handed one the last two corners are exchanged before it is marked, and it keeps its place in
 * the list. Build gives back the number alone, 0 on acceptance; it never gives 22, and tries 21, then
 * 3, 4, 5, 7, 8, 23, 20:
 *
 *    0  accepted
 *   21  coordinates not three a vertex, or corners not four a piece
 *    3  a count beyond its bounds: at most 1,024 vertices and 3,072 records, at least 4 and 1
 *    4  base coordinate off the grid (multiples of 32 from -32,736 to 32,736), or two base vertices
 *       at one place
 *    5  base record with equal corners, a corner not in the base, or sixfold volume 0
 *    7  a face in three base records, or two base records with the same four corners
 *    8  a base vertex in no base record
 *   23  a base vertex that lies in a closed base piece and isn't one of its corners: on an edge of
 *       the piece, in a face of it or inside
 *   20  the output buffer is shorter than the result
 *
 * The result has 20 + 10 * vertices + 17 * records bytes, at most 62,484. All room bytes at out are
 * written: after acceptance the buffer is zero past the result, after a refusal it is zero
 * throughout. It overlaps neither input. No pointer is NULL, also where its count is 0.
 */
uint32_t tmb_build(uint32_t job, const int16_t *coordinates, size_t coordinate_count,
                   const uint16_t *corners, size_t corner_count, uint8_t *out, size_t room);

/*
 * Refine takes a stored mesh, the mesh_length bytes at mesh, and a selection, the selection_length
 * bytes at selection, both only read, and writes the refined mesh. Every two byte strings get an
 * answer. It gives back the number alone, 0 on acceptance; else the first rule broken, in this order,
 * names the refusal:
 *
 *    0  accepted
 *    1 to 10, 22 and 23, of the mesh: what check gives for it, in the words above
 *   11  selection under 13 bytes, or length not 13 + 2 * n
 *   12  selection's mark or version wrong
 *   13  another job
 *   14  another round: the selection has expired
 *   15  numbers not strictly rising, or one not below the record count
 *   16  a named record is already cut
 *   17  a named record has generation 15
 *   18  the round is 65,535
 *   19  the closed result exceeds 1,024 vertices or 3,072 records
 *   20  the output buffer is shorter than the result
 *
 * The result has 20 + 10 * vertices + 17 * records bytes, at most 62,484; its round is one higher,
 * also for an empty selection, which cuts nothing. All room bytes at out are written: after
 * acceptance the buffer is zero past the result, after a refusal it is zero throughout. It overlaps
 * neither input. No pointer is NULL, also where its length is 0.
 */
uint32_t tmb_refine(const uint8_t *mesh, size_t mesh_length, const uint8_t *selection,
                    size_t selection_length, uint8_t *out, size_t room);

/*
 * Take-back takes a stored mesh, the mesh_length bytes at mesh, and a request, the request_length
 * bytes at request, both only read, and writes the mesh without the cuts that are taken back. The
 * request names cut records in the selection's layout. A made vertex is taken away exactly when every
 * record cut at it has two leaves as children and all those records are named, and with it go both
 * children of each of them; named records that don't meet this stay cut. Records and vertices that
 * remain close up in their order. Every two byte strings get an answer. It gives back the number
 * alone, 0 on acceptance; else the first rule broken, in this order, names the refusal:
 *
 *    0  accepted
 *    1 to 10, 22 and 23, of the mesh: what check gives for it, in the words above
 *   11 to 15, of the request: what refine gives for a selection, in the words above
 *   30  a named record that is uncut
 *   18  the round is 65,535
 *   20  the output buffer is shorter than the result
 *
 * The result has 20 + 10 * vertices + 17 * records bytes, at most mesh_length; its round is one
 * higher, also where nothing is taken back. All room bytes at out are written: after acceptance the
 * buffer is zero past the result, after a refusal it is zero throughout. It overlaps neither input. No
 * pointer is NULL, also where its length is 0.
 */
uint32_t tmb_take_back(const uint8_t *mesh, size_t mesh_length, const uint8_t *request,
                       size_t request_length, uint8_t *out, size_t room);

/*
 * What list gives back.
 *
 * number is 0 where an accepted mesh is listed; else
 *
 *    1 to 10, 22 and 23, of the mesh: what check gives for it, in the words above; input longer than
 *       the largest mesh, 62,484 bytes, is refused with 1 here
 *   20  of an accepted mesh: the output buffer is shorter than the listing
 */
struct tmb_listed {
    uint64_t number;
    uint64_t length; /* how many bytes of text the output buffer begins with; 0 where it is shorter
                        than the listing */
};

/*
 * List writes the listing of a stored mesh, the mesh_length bytes at mesh, which are only read: of an
 * accepted mesh one heading line, then each leaf in rising record number; of a refused one the one
 * line `refused ` and the number. Every line ends with a line feed. Every byte string gets an answer.
 * A buffer of 393,344 bytes holds any listing and never gets 20.
 *
 * All room bytes at out are written: the listing, also of a refused mesh, and zeros past it; where
 * the buffer is shorter than the listing it is zero throughout. It does not overlap the mesh. No
 * pointer is NULL, also where its length is 0.
 */
struct tmb_listed tmb_list(const uint8_t *mesh, size_t mesh_length, uint8_t *out, size_t room);

#ifdef __cplusplus
}
#endif

#endif
