/* fordwhistle.h: the section unit, for the panel's C program. Link libpanel.a; installed, by `pkg-config --cflags --libs fordwhistle`.
 *
 * Every function takes any input, returns, keeps nothing and calls nothing but memcpy and memset. An answer begins with its refusal: 0
 * where the call is answered, else the number of the first line below that holds of those that concern the call, and every other number of
 * the answer is then 0 (of a double, plus zero), save the count beside 15 and the work beside 14 and 15. A refused call writes nothing,
 * and of all functions only fw_write_book, fw_add_layer and fw_depths write at all, into what they are lent to be written.
 *
 *    1  book shorter than 16 bytes, longer than 65536, or not of its stated length
 *    2  book whose last four bytes are not BOOK
 *    3  place of the index + 4n + 16 is not the length; the sum is exact, also where it is 2 to the 32 or more
 *    4  first record (or, where n is 0, the index) not at 0, a layer count over 8, or a record that runs past the index or does not end
 *       where the next (or the index) starts
 *    5  record asked for is n or more
 *    6  record not 24 + 4m bytes (28 + 4m where hf is not 0), m over 8, or the zero after bf not zero
 *    7  concrete not in the table: fck is none of 20, 25, 30, 35, 40, 45, 50
 *    8  b outside 50 to 2000, or h outside 50 to 1000
 *   20  flange, tested here since b and h are its limits: where hf is not 0, hf not below h, bf below b, or bf over 2000
 *    9  fyk outside 400 to 600
 *   10  feq2 or feq3 over 20000
 *   11  axial load outside -10000000 to 10000000
 *   12  bars: a layer's depth outside 1 to h-1, an area of 0, depths that do not rise strictly, or a deepest layer that does not lie
 *       below mid-height (twice its depth is not more than h)
 *   13  stirrups without spacing: Asw is not 0 and s is
 *   14  no depth to list; the work beside it is h (h + m), as every depth was looked at
 *   15  row shorter than three words a listed depth; the count beside it is the number of listed depths, and the work is h (h + m)
 *   16  shear without bars: m is 0
 *   17  fR1 is below 1000 kPa, or fR3 is below half the step
 *   18  strain outside -10000 to 3500, or a depth that is not on the grid, 1 to h
 *   19  book to be written longer than the bytes lent for it or than 65536, or record to be written longer than the bytes lent for it
 *   21  number of beam results that is none of 3, 4, 5, 6, 8, 10, 12 and 15
 *   22  beam result outside 1 to 20000 kPa
 *   23  characteristic value that would be below 0
 *
 * Stress is in kPa (0.001 N/mm2), strain in millionths, length in mm, area in mm2. Compression is positive.
 */
#ifndef FORDWHISTLE_H
#define FORDWHISTLE_H

#include <stddef.h>
#include <stdint.h>

#ifdef __cplusplus
extern "C" {
#endif

/* A record is a section in bytes, little-endian, without padding and at any address:
 *
 *   byte     bits
 *   0        16         b, width; of a section with a flange that of its web
 *   2        16         h, height
 *   4        16         fck, the concrete by its cylinder strength, N/mm2
 *   6        16         fyk, bar strength, N/mm2
 *   8        16         feq2, fibre strength, kPa; 0 is no fibre help
 *   10       16         feq3, the same
 *   12       32 signed  axial load, N (two's complement)
 *   16       16         Asw, stirrup area; 0 is none, and s is then ignored
 *   18       16         s, stirrup spacing
 *   20       16         m, layer count
 *   22       16         hf, flange height; 0 is no flange
 *   24 + 4j  16         depth of bar layer j from the compressed face, for each j from 0 to m-1
 *   26 + 4j  16         its area
 *   24 + 4m  16         bf, flange width, where hf is not 0
 *   26 + 4m  16         zero, where hf is not 0
 *
 * So it has 24 + 4m bytes, and 4 more where hf is not 0; 60 bytes hold every record. It stands alone or in a book, the same bytes in both.
 * A section with a flange is bf wide from the compressed face down to hf, and b wide below that, in its web. */

/* A book is the bytes of n records and of an index to them, 16 to 65536 bytes in all, little-endian, without padding and at any address:
 *
 *   byte        bits
 *   0                the records, one after another, each of 24 + 4m bytes by its own m, and 4 more where its own hf is not 0
 *   index + 4k  32   place of record k, the byte of the book at which it starts, for each k from 0 to n-1
 *   len - 16    32   place of the index, the byte at which the last record ends
 *   len - 12    32   n, the number of records; 0 too, and the index is then at 0
 *   len - 8     32   length of the book, len
 *   len - 4     32   the letters BOOK, the B at len - 4
 *
 * A function that takes a record, records or a book takes a pointer to len bytes that may be read. It reads no other byte and writes none
 * of them. len is any length, 0 too: what is wrong with it is refused. Where len is 0 the pointer may be null; a book is then refused 1, a
 * record 6, as any other of no bytes, and of records there are none. */

/* What a book holds.
 * count: n, the number of its records. */
typedef struct {
    uint32_t refusal, count;
} fw_book_answer;

/* How many records a book has; it may have none, and count is then 0 beside 0. Refusal 1, then 2, 3 and 4; count is then 0. Writes nothing.
 * Of its records only the places, the layer counts and whether hf is 0 are looked at. What else is wrong with one is for the functions
 * that take a record to refuse. */
fw_book_answer fw_book(const uint8_t *book, size_t len);

/* A record of a book, as a part of the caller's book, not copied: the len bytes from book + at.
 * at: the record's place.
 * len: 24 + 4m, where m, its layer count, is at most 8, and 4 more where its hf is not 0. */
typedef struct {
    uint32_t refusal, at, len;
} fw_record_answer;

/* The record of this number in a book, the first being 0. Refusal 1 to 4 as fw_book, whichever record is asked for, then 5 where number is
 * n or more, so of a book of no records always; at and len are then 0, an empty part. Writes nothing.
 * book + at and len are handed on as they are, at whatever address that is, to the functions below that take a record. These can still
 * refuse the record of a good book: 6 where the zero after its bf is not zero, and 7 to 13 with 20. An empty part they refuse 6. */
fw_record_answer fw_record(const uint8_t *book, size_t len, uint32_t number);

/* A book or a record, written into lent bytes.
 * len: its length; it has the first len of the bytes, and those past it stay. */
typedef struct {
    uint32_t refusal, len;
} fw_written;

/* Writes the book of the sections whose records stand one after another in the len bytes, in that order; of no section it has 16 bytes.
 * A record with Asw 0 is written with s 0, whatever s it has, any other as it is.
 * Refusal 6, then 7 to 13 with 20, of each record in turn, as long as its own m and hf say: the first that is refused gives its
 * number, also where the book would be too long as well. What is left at the end and is no whole record is refused 6. Then 19 where room
 * or 65536 is less than the length of the book, which is len, 4 for each record and 16. On any refusal the len returned is 0 and all of
 * book stays.
 * book is a pointer to room bytes that may be read and written; none of them is part of the records. room is any number, 0 too, and book
 * may then be null: no book has no bytes, so where no record is refused that is 19. 65536 bytes hold every book. */
fw_written fw_write_book(const uint8_t *records, size_t len, uint8_t *book, size_t room);

/* Writes a record with a layer of this depth and area added: in its place, so that the depths rise, with m one more and all else as it
 * is, s too, and bf after the layers. Refusal 6, then 12, here where depth is outside 1 to h-1 (so always where h is 0 or 1), area is 0, a
 * layer of that depth or 8 layers are there, or a layer that is there has its depth outside 1 to h-1 or an area of 0, or their depths do
 * not rise strictly. No other test of a section is made: not 7 to 11 with 20, not 13, nor whether the deepest layer lies below
 * mid-height. Then 19 where room is less than the length of the new record, 24 + 4(m+1) by the m of the old, and 4 more where hf is not 0.
 * On any refusal the len returned is 0 and all of out stays.
 * out is a pointer to room bytes that may be read and written; none of them is part of the record. room is any number, 0 too, and out may
 * then be null. 60 bytes hold every record. */
fw_written fw_add_layer(const uint8_t *record, size_t len, uint16_t depth, uint16_t area, uint8_t *out, size_t room);

/* The class of a fibre concrete.
 * step: the largest of 1000, 1500, 2000, 2500, 3000, 3500, 4000, 4500, 5000, 6000, 7000, 8000 that is at most fR1; the step itself,
 *       not its position.
 * letter: by fR3 over the step: 'a' from 0.5, 'b' from 0.7, 'c' from 0.9, 'd' from 1.1, 'e' from 1.3. */
typedef struct {
    uint32_t refusal, step, letter;
} fw_class_answer;

/* The class from fR1 and fR3, each in kPa, 0 to 65535. Refusal 17 where fR1 is below 1000, then where fR3 is below half the step; step and
 * letter are then 0. Writes nothing. */
fw_class_answer fw_class(uint16_t fr1, uint16_t fr3);

/* The characteristic strength of a series of beams: n results of one strength, each in kPa, by formula 5 of RILEM TC 162-TDF (2000), with
 * t10 in hundredths from its Table 2.
 * mean: f, the mean of the results, rounded down to a whole number.
 * deviation: s, the largest whole number with s x s x (n - 1) at most the sum of the squares of each result's distance from f.
 * value: the characteristic value f - a - g, 0 or more and at most f, where
 *   a = the least whole number with 10000 x a x a x n at least (s t10) x (s t10)
 *   g = 329 s (f + a) / (200 f), rounded up to a whole number
 *
 *   n       3    4    5    6    8   10   12   15
 *   t10   189  164  153  148  142  138  136  134 */
typedef struct {
    uint32_t refusal, mean, deviation, value;
} fw_strength_answer;

/* The characteristic strength of n results. Their order changes nothing. Refusal 21 where n is none of 3, 4, 5, 6, 8, 10, 12 and 15,
 * whatever the results are, then 22 where one of them is 0 or over 20000, then 23 where a + g is more than f; mean, deviation and value
 * are then 0. Where nothing is refused value is 0 too if a + g is just f. A value is at most 20000, so that fw_class takes it as it is.
 * results is a pointer to n numbers, aligned as uint32_t is, that may be read; no other is read, and none is written. n is any number,
 * 0 too, and results may then be null. */
fw_strength_answer fw_strength(const uint32_t *results, size_t n);

/* The two depths of a section that the formulas below take. A layer lies below mid-height where twice its depth is more than h.
 *
 *   d      the effective depth, for s1 and the shear: the centroid of the layers below mid-height, which is the sum of area x depth over
 *          the sum of areas, both of these layers alone, rounded down to a whole number; h without bars
 *   limit  the limit depth, for the strains, where tension reaches at most 10 per mille: the depth of the deepest layer; h without bars
 *
 * Without bars, and with just one layer below mid-height, they are the same; else d is the lesser. */

/* A drawn point of the law of a section's concrete.
 * strain: the whole strain that was asked, exactly.
 * stress: the double nearest to the law's exact fraction, of two as near the even one; equal to it where it is whole. In tension zero
 *         or below. Zero is always plus zero.
 *
 * The law's stress at a compression e up to 2000 is fcd e (4000 - e) / 4000000, and above 2000 fcd. In tension it goes straight from
 * (0, 0) to (e1, s1) to (e2, s2) to (e3, s3). Each of these numbers is rounded down to a whole one, the stress is not:
 *   fcd = 17000 fck / 30
 *   s1 = 7 x mean flexural strength x (1600 - d) / 10000
 *   e1 = 1000 s1 / E, e2 = e1 + 100, e3 = 10000
 *   s2 = 45 feq2 / 100, s3 = 37 feq3 / 100
 *
 *   fck                            20     25     30     35     40     45     50
 *   mean flexural strength, kPa  3700   4300   4800   5300   5800   6300   6800
 *   modulus E, N/mm2            29000  30500  32000  33500  35000  36000  37000 */
typedef struct {
    double strain, stress;
} fw_point;

typedef struct {
    uint32_t refusal;
    fw_point point;
} fw_drawn;

/* The point of a record's section at a whole strain. Refusal 6, then 7 to 13 with 20, then 18 where strain is below -10000 or above
 * 3500; strain and stress are then plus zero. Writes nothing. */
fw_drawn fw_draw(const uint8_t *record, size_t len, int32_t strain);

/* One number of a section.
 * amount: an imbalance, a moment or a shear resistance, as the function says that returns it. */
typedef struct {
    uint32_t refusal;
    int64_t amount;
} fw_amount;

/* The balance of a section with its neutral axis at a depth x from the compressed face, a whole one from 1 to h: the grid.
 *
 * Where 7 limit > 27 x the strain at depth y is 10000 (x - y) / (limit - x), else 3500 (x - y) / x. It stays an exact fraction.
 * The section is cut in h strips of 1 mm, each with the strain at its middle. The first hf of them, from the compressed face, are bf wide,
 * the others b. A strip's stress is that of the law above, and zero in tension beyond e3. A bar layer's is 200 times the strain, its size
 * at most fyd, which is 100000 fyk / 115 rounded down. The size of each strip's and each bar layer's stress is rounded down to a whole
 * number of kPa, and nothing before it. Bars add their whole force; the concrete in their place is not taken off.
 *
 * imbalance: compression forces minus tension forces minus the axial load, in mN.
 * moment: about mid-height, the sum of each force times twice its distance, in mN half-mm; positive where the compressed face is on top. */

/* The imbalance of a record's section at depth x. Refusal 6, then 7 to 13 with 20, then 18 where x is 0 or more than h; amount is
 * then 0. Where nothing is refused it is 0 too if the forces balance at x. Writes nothing. */
fw_amount fw_imbalance(const uint8_t *record, size_t len, uint32_t x);

/* The moment of a record's section at depth x, balanced or not. Refused as fw_imbalance is; amount is then 0. A moment can also be
 * below 0. Writes nothing. */
fw_amount fw_moment(const uint8_t *record, size_t len, uint32_t x);

/* The depths at which a section balances.
 * Depth x is listed as kind 1 if the imbalance there is zero, and as kind 2 if x < h and the imbalances at x and x + 1 have strictly
 * opposite signs. There may be several: fibre concrete softens after its first crack. All are listed, the shallowest first.
 * count: the number of listed depths.
 * work: the number of stresses that the rules take for the imbalances at the depths looked at, h strips and m layers at each. The library
 *       computes no others for them, and mostly far fewer, since a sign is all that it needs; the number stays the same where it gets
 *       faster. The stresses of a moment are not in it. For a list every depth is looked at: h (h + m), at most 1008000. */
typedef struct {
    uint32_t refusal, count, work;
} fw_listed;

/* Writes the listed depths of a record's section into a lent row, three words each: x, its kind, the moment at x. The words after them
 * stay. Refusal 6, then 7 to 13 with 20, and count and work are then 0; then 14, and count is 0; then 15 where words is less than 3 times
 * the number of listed depths, and count is that number. Beside 14 and 15 work is h (h + m), as beside 0. On any refusal the whole row
 * stays.
 * row is a pointer to as many words as said that may be read and written; none of them is part of the record. words is any number, 0 too,
 * and row may then be null: where there is a depth to list, that is refused 15 and so asks for the count alone. 3 h words hold every list
 * of a section of height h, so 3000 the list of any section. The call takes some 3 KB of stack, fw_first some 2, any other function less
 * than 1. */
fw_listed fw_depths(const uint8_t *record, size_t len, int64_t *row, size_t words);

/* The first depth of that list alone.
 * depth: x, the shallowest at which the section balances.
 * kind: its kind, 1 or 2.
 * work: as in fw_listed, but for the depths that fw_first looks at: x (h + m) for kind 1, (x + 1) (h + m) for kind 2, h (h + m) beside
 *       14. It is never above h (h + m), which a caller knows before the call.
 * moment: the moment at x. */
typedef struct {
    uint32_t refusal, depth, kind, work;
    int64_t moment;
} fw_first_depth;

/* The first listed depth of a record's section: the first three words that fw_depths writes, without a row. Refusal 6, then 7 to 13
 * with 20, then 14, each exactly where fw_depths is refused by it; depth, kind and moment are then 0, and so is work, but beside 14. It is
 * never refused 15. Writes nothing.
 * It looks at no depth past the one that decides, x of kind 1 and x + 1 of kind 2, and is meant for a screen that follows a knob. Whether
 * the section balances deeper too, and with which moment, only fw_depths tells. */
fw_first_depth fw_first(const uint8_t *record, size_t len);

/* The shear resistance of a section with bars. d and fyd are as above. As is the area of the layers below mid-height, N is the axial load
 * in mN, 1000 times the record's, A is the area of the concrete, bf hf + b (h - hf), which is b h where hf is 0. Each quotient is rounded
 * down to a whole number before it is used, and so the share of a tensile load towards minus infinity:
 *   k = 1000 + r, at most 2000, with the largest r such that r x r x d is at most 200000000
 *   c = the largest such that c x c x c x b d is at most 100000000000 As fck; where 50 As > b d, that c x c x c is at most 2000000000 fck
 *   concrete = 12 k c / 100000 + 15 N / (100 A), at least 0
 *   kf = 1000 + 1000 q hf / (b d), at most 1500, with q the least of bf - b, 3 hf and 3 b; where hf is 0, 1000
 *   fibres = t x max(1000, 1600 - d) x kf / 1000000, with t = 12 feq3 / 100
 *   stirrups = 9 Asw d fyd / (10 s), or 0 where Asw is 0
 *   struts = max(500, 700 - 5 fck) x (2000 fck / 3) x 9 b d / 20000
 *
 * shear resistance: the lesser of (concrete + fibres) x b d + stirrups and struts, in mN; 0 or more. */

/* The shear resistance of a record's section, in mN. Refusal 6, then 7 to 13 with 20, then 16; amount is then 0. Where nothing is
 * refused it is 0 too if tension takes all that the concrete bears and neither fibres nor stirrups bear anything. Writes nothing. */
fw_amount fw_shear(const uint8_t *record, size_t len);

#ifdef __cplusplus
}
#endif

#endif
