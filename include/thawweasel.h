/* Thawweasel: proved point location on a sheet of zones.
 *
 * Link crates/exports/out/libexports.a, which `rt lib` in crates/exports writes once the crate is proved.
 *
 * A sheet is two margins, a table of vertices (x, y), a table of edges (western vertex, eastern vertex, zone above, zone below)
 * and a number of zones n; V vertices, m edges and n zones are numbered from 0. A length is a number of words, not of records.
 * A page is a sheet with points to place as text: lines of lower-case hexadecimal, one frame a line, as document 02 has it. The
 * length of a page or a text is in bytes.
 *
 * Every call ends with an answer or a numbered refusal, whatever numbers and words it is handed; a refusal writes nothing but
 * `out`, and names an item where its line in document 01 names one, otherwise 0. Nothing is kept between calls.
 *
 * What a caller owes, since no proof covers it:
 *   - a pointer with a length other than 0 points to that many readable words, and writable ones where it is not const;
 *   - `out` points to as many writable words as its parameter says;
 *   - every pointer is aligned for its words;
 *   - what a call may write (`index` of tw_open, `trail`, the tables of tw_read_page, `text`, the last four tables of tw_month,
 *     `out`) overlaps nothing else that it is handed, and no other thread reads or writes it, or writes anything that is handed,
 *     during the call;
 *   - the stack has room: 512 KiB is enough for tw_open and tw_read, 640 KiB for tw_place_page, 64 KiB for the others.
 * A pointer with length 0 is never read or written, and may be null.
 */
#ifndef THAWWEASEL_H
#define THAWWEASEL_H

#include <stddef.h>
#include <stdint.h>

#ifdef __cplusplus
extern "C" {
#endif

/* The kinds of answer. */
enum {
    TW_REFUSED = 0,
    TW_VERTEX = 1,
    TW_EDGE = 2,
    TW_ZONE = 3
};

/* Opens a sheet: judges it by refusals 1 to 13, in that order, and writes its index.
 * out: refusal number and item; 0 0 where the sheet is opened, and then the first 3n + m + 1 words of index are its index and
 * those past them are as they were. A refusal leaves every word of index as it was. */
void tw_open(int32_t west, int32_t east,
             const int32_t *vertices, size_t vertices_len,
             const uint32_t *edges, size_t edges_len,
             uint32_t zones,
             uint32_t *index, size_t index_len,
             uint32_t out[2]);

/* Reads the point (x, y) with no index: refusals 1, 2, 4 to 13 and 20, in that order.
 * out: kind; then the vertex, edge or zone and 0, or where the kind is TW_REFUSED the refusal's number and item. */
void tw_read(int32_t west, int32_t east,
             const int32_t *vertices, size_t vertices_len,
             const uint32_t *edges, size_t edges_len,
             uint32_t zones,
             int32_t x, int32_t y,
             uint32_t out[3]);

/* Searches for the point (x, y) by the words of an index, quickly: refusals 1, 2, 3, 20, 21 and 22, in that order. The sheet is
 * not judged again: with the tables that tw_open was handed and the words that it wrote, the answer is tw_read's.
 * out: kind, number and item as tw_read has them, then the number of edges examined and of probes, both 0 on a refusal. The edges
 * examined are written, in order, to the front of trail; every other word of it is as it was. A trail of 12 words has room on
 * every sheet; it needs as many as n - 1 has binary digits. */
void tw_search(int32_t west, int32_t east,
               const int32_t *vertices, size_t vertices_len,
               const uint32_t *edges, size_t edges_len,
               uint32_t zones,
               const uint32_t *index, size_t index_len,
               int32_t x, int32_t y,
               uint32_t *trail, size_t trail_len,
               uint32_t out[5]);

/* The kinds of reading that a sample may have. */
enum {
    TW_NOT_TAKEN = 0,
    TW_MEASURED = 1,
    TW_BELOW_DETECTION = 2
};

/* The judgements of a zone. */
enum {
    TW_NO_MEAN = 0,
    TW_WITHIN = 1,
    TW_OVER = 2
};

/* Judges a month of samples, each placed as tw_search places its point by the words of index: refusals 1, 2, 3, 43, 42, 40, 22 and
 * 41, in that order.
 * A sample is two words of points (x, y), a kind and a value in mg/L: what was measured, or the detection limit that it was below;
 * the value of a sample not taken is not looked at. A zone's permit is two values, its limit and its detection floor; values past
 * 2n are not looked at. Values, limits and floors are greater than 0 and at most 1,000.
 *   43      more than 4,096 samples; points_len other than twice kinds_len, or values_len other than kinds_len; boundary_len or
 *           off_len less than kinds_len; permits_len less than 2n, results_len less than 3n or means_len less than n
 *   42 z    the permit of zone z is out of range, not-a-number included
 *   40 k    sample k has another kind, or a value out of range, not-a-number included
 *   22 k    the search for sample k, which was taken, says 22
 *   41 k    sample k is below detection, lies in a zone, and its detection limit is above that zone's floor
 * Each names the lowest, 43 names 0, and a refusal leaves every lent word as it was.
 * out: refusal number and item, 0 0 for a month that is judged; then the numbers of taken samples on an edge or vertex and of those
 * that 20 turns away, 0 0 on a refusal. Their numbers are written, in sample order, to the fronts of boundary and off; they are in
 * no zone. Each zone has three words of results: how many taken samples lie in it, how many of those are below detection, and its
 * judgement. Its mean is the sum of what was measured or of the detection limits, added in sample order as doubles, divided once by
 * their number; it is over where it is greater than the limit. The mean of one sample is its value, bit for bit. The place among the
 * means of a zone with no sample is as it was, and so is every word past the lists, the 3n results and the n means. */
void tw_month(int32_t west, int32_t east,
              const int32_t *vertices, size_t vertices_len,
              const uint32_t *edges, size_t edges_len,
              uint32_t zones,
              const uint32_t *index, size_t index_len,
              const int32_t *points, size_t points_len,
              const uint32_t *kinds, size_t kinds_len,
              const double *values, size_t values_len,
              const double *permits, size_t permits_len,
              uint32_t *boundary, size_t boundary_len,
              uint32_t *off, size_t off_len,
              uint32_t *results, size_t results_len,
              double *means, size_t means_len,
              uint32_t out[4]);

/* Reads a page: refusals 30, 31, 32 and 1 as its earliest line that is at fault has them, then 33 where a table is too short.
 * out: refusal number and line, 0 0 for a good page; then W and E as their two's complement words, V, m, n and the number of
 * points, all 0 on a refusal. The words read are written to the fronts of the tables: 2V to vertices, 4m to edges, 2 for each
 * point to points; those past them are as they were. The sheet is not judged. */
void tw_read_page(const uint8_t *page, size_t page_len,
                  int32_t *vertices, size_t vertices_len,
                  uint32_t *edges, size_t edges_len,
                  int32_t *points, size_t points_len,
                  uint64_t out[8]);

/* Writes a sheet with its points as a page: refusal 1, where points is not whole too, then 33 where text is too short. The sheet
 * is not judged further.
 * out: refusal number, 0 where the page is written, and the number of bytes: 43 + 19V + 35m + 19 for each point. They are written
 * to the front of text; those past them are as they were. tw_read_page gives the tables and the points back. */
void tw_write_page(int32_t west, int32_t east,
                   const int32_t *vertices, size_t vertices_len,
                   const uint32_t *edges, size_t edges_len,
                   uint32_t zones,
                   const int32_t *points, size_t points_len,
                   uint8_t *text, size_t text_len,
                   uint64_t out[2]);

/* The room that tw_place_page asks. */
#define TW_TEXT 131072

/* Writes what the program `place` prints for a page: a line for each point (zone 1, edge 0, vertex 3, refused 20 0), or one refusal
 * line alone where the page or its sheet is refused, or the page is longer than 65,536 bytes (refused 34 0).
 * out: 0 and the number of bytes, written to the front of text; or 33 and 0 where text_len is below TW_TEXT. */
void tw_place_page(const uint8_t *page, size_t page_len,
                   uint8_t *text, size_t text_len,
                   uint64_t out[2]);

#ifdef __cplusplus
}
#endif

#endif
