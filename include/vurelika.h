/* Vurelika: resampling of volumes of f64 on three axes, in which each output voxel is marked as
 * computed, computed with a folded neighbour, or filled.
 *
 * A volume of d0 by d1 by d2 voxels is a flat buffer, last index fastest: the voxel x, y, z stands at
 * (x * d1 + y) * d2 + z. Every buffer is the caller's, given as a pointer and its number of places, and
 * is not kept after the call. Any numbers and any lengths are answered: a call ends in success or in a
 * refusal (below).
 *
 * An axis may have length 1. So a radiograph is a volume, of 1 by d1 by d2 say, and so are a single lane and a
 * single voxel. Such an axis takes the shift 0.0 or -0.0, or a zoom that leaves it 1, whose factor is above 0.5
 * and below 1.5; else the answer is VURELIKA_SLICE. It is not filtered, not padded and not folded, whatever the
 * mode and order: its one voxel enters with a single weight of exactly 1. So it drops no voxel, gives none the
 * code 3, and never meets VURELIKA_BESIDE. The other axes are as in any volume.
 *
 * The caller sees to this:
 * - A pointer is good for its number of places, and aligned for its type as C asks. A buffer of 0
 *   places may be NULL.
 * - Buffers do not overlap.
 * - The floating-point environment is in its default state: numbers are rounded to nearest
 *   (fesetround(FE_TONEAREST)), subnormal numbers are kept (neither FTZ nor DAZ), nothing traps. It is
 *   the register MXCSR on x86-64, FPCR on Arm. A program linked with -ffast-math may flush subnormal
 *   numbers from its start on. In another environment values, codes and counts may be other ones.
 *
 * A call allocates nothing, takes at most about 413 kB of stack, and uses nothing but what it is given:
 * calls from several threads do not disturb each other as long as they are lent different buffers to write.
 */
#ifndef VURELIKA_H
#define VURELIKA_H

#include <stddef.h>
#include <stdint.h>

#define VURELIKA_VERSION "0.5.0"

#ifdef __cplusplus
extern "C" {
#endif

/* What a coordinate outside the volume stands for. Constant alone has a fill.
 *
 * Whoever wants SciPy's mode='nearest' wants VURELIKA_REPLICATE. VURELIKA_NEAREST is the Rust's, and keeps its
 * numbers: at coordinates at or below -1 (-13 where the voxels are filtered first) it writes 0.0, with code 2.
 * Replicate clamps the coordinate to the volume before anything else, so it drops no voxel: there is no code 1
 * or 2 and no VURELIKA_BESIDE. Above order 1 it stands still beyond the volume, where SciPy and Nearest go on
 * along the spline. It needs as much work as Nearest. */
enum {
    VURELIKA_CONSTANT = 0,      /* the fill */
    VURELIKA_MIRROR = 1,        /* the volume mirrored about its end voxels */
    VURELIKA_NEAREST = 2,       /* the edge voxel, but 0.0 at and below -1 */
    VURELIKA_REFLECT = 3,       /* the volume mirrored about its outer faces */
    VURELIKA_WRAP = 4,          /* the volume again, first and last voxel as one */
    VURELIKA_REPLICATE = 5      /* the edge voxel */
};

/* What a function returns: 0, or the first of these that applies, in the order in which they stand.
 * VURELIKA_MODE comes before the refusals and is none of them: no request could be formed. */
enum {
    VURELIKA_DONE = 0,
    VURELIKA_MODE = 255,        /* the mode is none of the six */
    VURELIKA_NOT_NPY = 10,      /* the bytes are no whole .npy file of version 1.0, '<f8', C order and
                                   three axes */
    VURELIKA_ORDER = 1,         /* the order is above 5; for vurelika_spline_filter also 0 or 1 */
    VURELIKA_AXIS = 2,          /* vurelika_spline_filter1d: the axis is above 2 */
    VURELIKA_LENGTH = 3,        /* an input axis has length 0, or is longer than 4,096 */
    VURELIKA_FACTOR = 4,        /* a shift is not finite, or its size is 2^20 or more; a zoom factor is
                                   not finite, not above 0, or above 4,096 */
    VURELIKA_SLICE = 12,        /* an axis of length 1 has a shift other than 0, or a zoom to a length other
                                   than 1: a factor of 0.5 or less, or of 1.5 or more */
    VURELIKA_OUTPUT_LENGTH = 5, /* zoom: an axis longer than 1 would come out shorter than 2 or longer than
                                   4,096 */
    VURELIKA_COUNT = 6,         /* input, output or needed work has more than 2^27 places */
    VURELIKA_BUFFER = 7,        /* a buffer has the wrong number of places */
    VURELIKA_VALUE = 8,         /* the fill or a voxel is not finite, or its size exceeds 2^100 */
    VURELIKA_BESIDE = 9,        /* order 0: a coordinate is kept, but its nearest voxel lies outside; never
                                   in Replicate */
    VURELIKA_INDEX = 11         /* the output index lies outside the output */
};

/* What coverage says of a voxel, and what that means for a density.
 *
 * A voxel is computed from order + 1 neighbours on each axis longer than 1. Near an edge some of them lie
 * outside the scan, and the value of a voxel inside is read in their stead (the fold): some of the scan is
 * then weighed twice. Where such a neighbour has a weight that is not 0 the code is 3, not 0. At order 0 there
 * is no code 3; above order 1 the ends of an axis longer than 1 bear it even where nothing is moved. With
 * prefilter a neighbour is a coefficient, which draws on its whole line; the codes speak of the neighbours
 * alone.
 *
 * In Constant codes 0 and 3 say that the place lay in the scan: on each axis from 0 up to, not
 * including, the length. In the other modes they do not say so: a place beyond the scan is folded back
 * into it, or clamped to its edge, and computed there, and that is not remarked. After a shift by 13.5 on an
 * axis of 20, 14 planes come from before the scan. At order 1 Constant gives code 0 to 6 of the 20, Nearest to
 * 6, with code 3 at one more, Reflect to 19, with code 3 at one, and Mirror, Wrap and Replicate to all of
 * them: in Replicate 14 are the edge again.
 *
 * So for a density choose Constant, and count the voxels of code 0 alone (where counts[0] is not 0):
 *
 *     for (i = 0; i < voxels; i++) if (coverage[i] == VURELIKA_COMPUTED) sum += output[i];
 *     mean = sum / counts[VURELIKA_COMPUTED];
 */
enum {
    VURELIKA_COMPUTED = 0,      /* computed from voxels of the scan, each in its own place: count these */
    VURELIKA_FILLED = 1,        /* outside, in Constant: it holds the fill, bit for bit; no bone */
    VURELIKA_DEFAULTED = 2,     /* outside, in another mode: it holds 0.0; no bone. Never in Replicate */
    VURELIKA_FOLDED = 3         /* computed, but a neighbour with a weight lay outside the scan, and a voxel
                                   inside was read in its stead: leave these out, or report them apart */
};

/* How many codes there are, and places of counts. */
#define VURELIKA_CODES 4

/* Shifts a volume by f0, f1, f2 voxels: the output voxel at index i of an axis is the input at i - f. Of an
 * axis of length 1 f is 0.
 * order 0 copies the nearest voxel, 1 to 5 are splines; with prefilter not 0, orders 2 to 5 filter the
 * voxels first. fill is read in mode Constant alone.
 *
 * input, output and coverage have d0 * d1 * d2 places each; work has at least vurelika_work_count of
 * them, and may be empty where that is 0; counts has exactly VURELIKA_CODES places, 4.
 *
 * On success output and coverage are written fully, work begins with the filtered coefficients, and
 * counts says how many voxels bear the codes 0, 1, 2 and 3; the four add up to the output's number of
 * places. On any other answer output, coverage and work hold what they held, and counts is 0, 0, 0, 0.
 * counts of another length than 4 is left alone: the answer is then VURELIKA_BUFFER, or what comes
 * before it, VURELIKA_MODE among them. */
uint32_t vurelika_shift(size_t d0, size_t d1, size_t d2, double f0, double f1, double f2,
                        size_t order, uint32_t prefilter, uint32_t mode, double fill,
                        const double *input, size_t input_len, double *output, size_t output_len,
                        uint8_t *coverage, size_t coverage_len, double *work, size_t work_len,
                        uint64_t *counts, size_t counts_len);

/* Zooms a volume by the factors f0, f1, f2. output and coverage have as many places as the product of
 * the three vurelika_zoom_length; all else is as with vurelika_shift. No axis comes out with length 1 but one
 * that has it: a longer one is then VURELIKA_OUTPUT_LENGTH. */
uint32_t vurelika_zoom(size_t d0, size_t d1, size_t d2, double f0, double f1, double f2,
                       size_t order, uint32_t prefilter, uint32_t mode, double fill,
                       const double *input, size_t input_len, double *output, size_t output_len,
                       uint8_t *coverage, size_t coverage_len, double *work, size_t work_len,
                       uint64_t *counts, size_t counts_len);

/* One voxel of what vurelika_shift writes, worked out afresh, to recheck it where there is no room for the
 * volume that comes out: no table, and about 2 kB of stack. x, y, z is its index on each axis of the
 * output. value has exactly 1 place and takes the bits that vurelika_shift writes there, code has exactly 1
 * place and takes its code.
 *
 * input and work are as with vurelika_shift, but work is only read. With prefilter not 0, orders 2 to 5 read the
 * coefficients in work, its first vurelika_work_count places. They are to be those that vurelika_shift or
 * vurelika_zoom leaves there: any call of either that succeeds leaves the same ones, as long as input, lengths,
 * order, prefilter and mode are the same. Other numbers are taken too; value is then the sum over those.
 *
 * Refusals: those of vurelika_shift, in their order, and after them VURELIKA_INDEX, where x, y or z is at or
 * beyond its output length. All of the input is looked at for VURELIKA_VALUE, also where work alone is read, and
 * every index of an axis for VURELIKA_BESIDE. On any other answer than VURELIKA_DONE value and code hold what
 * they held. */
uint32_t vurelika_shift_voxel(size_t d0, size_t d1, size_t d2, double f0, double f1, double f2,
                              size_t order, uint32_t prefilter, uint32_t mode, double fill,
                              const double *input, size_t input_len, const double *work, size_t work_len,
                              size_t x, size_t y, size_t z, double *value, size_t value_len,
                              uint8_t *code, size_t code_len);

/* The same of what vurelika_zoom writes. The output lengths are then those of vurelika_zoom_length. */
uint32_t vurelika_zoom_voxel(size_t d0, size_t d1, size_t d2, double f0, double f1, double f2,
                             size_t order, uint32_t prefilter, uint32_t mode, double fill,
                             const double *input, size_t input_len, const double *work, size_t work_len,
                             size_t x, size_t y, size_t z, double *value, size_t value_len,
                             uint8_t *code, size_t code_len);

/* How many neighbours an axis has at most: order + 1, and the order is at most 5. */
#define VURELIKA_NEIGHBOURS 6

/* What one axis of a shift gives to one output index, so that a person can check a voxel on paper: the
 * coordinate, the neighbours and their weights. length, shift and index are those of the axis.
 *
 * coordinate has exactly 1 place. It takes the coordinate as it stands once the mode has folded it, on the axis
 * as padded: where orders 2 to 5 prefilter in Nearest and Replicate, 12 edge copies stand on each side of an axis
 * longer than 1, and 12 is added. Above -1 the index is kept, else it is dropped.
 *
 * neighbours and weights have exactly VURELIKA_NEIGHBOURS places each, 6. Of a kept index the first order + 1 are
 * the neighbours' indices, on the axis as padded and folded back into it, and their weights; the rest are 0 and
 * 0.0. Of a dropped index all are 0 and 0.0. An axis of length 1 has one neighbour at every order: the coordinate
 * is 0, the neighbours are 0, 0, 0, 0, 0, 0, and the weights 1, 0, 0, 0, 0, 0. The products of finite voxels with
 * weight 0 change no sum.
 *
 * A voxel that some axis drops is the fill in Constant, and else 0.0. At order 0 the one voxel at the three
 * neighbours is copied. Else the sum starts at 0.0 and adds
 *
 *     voxel * (x weight * (y weight * z weight))
 *
 * for all neighbours, those of axis 2 outermost and those of axis 0 innermost, each operation rounded once. The
 * voxels are those of the input; where orders 2 to 5 prefilter, they are the coefficients in work, a volume whose
 * axes have the input's lengths, or in Nearest and Replicate 24 more where they are longer than 1.
 *
 * Refusals: VURELIKA_MODE, VURELIKA_ORDER, VURELIKA_LENGTH, VURELIKA_FACTOR, VURELIKA_SLICE, VURELIKA_BUFFER,
 * VURELIKA_BESIDE (at any index of this axis), VURELIKA_INDEX. coordinate, neighbours and weights then hold what
 * they held. */
uint32_t vurelika_shift_point(size_t length, double shift, size_t order, uint32_t prefilter, uint32_t mode,
                              size_t index, double *coordinate, size_t coordinate_len,
                              size_t *neighbours, size_t neighbours_len, double *weights, size_t weights_len);

/* The same of a zoom, with VURELIKA_OUTPUT_LENGTH among the refusals, directly after VURELIKA_SLICE. */
uint32_t vurelika_zoom_point(size_t length, double factor, size_t order, uint32_t prefilter, uint32_t mode,
                             size_t index, double *coordinate, size_t coordinate_len,
                             size_t *neighbours, size_t neighbours_len, double *weights, size_t weights_len);

/* The spline coefficients of a volume, along all three axes. input and output have d0 * d1 * d2 places
 * each. Never pads, in Nearest and Replicate neither. Along an axis of length 1 nothing is filtered, so a single
 * voxel is copied, bit for bit. The fill is checked in mode Constant, though it is not used. */
uint32_t vurelika_spline_filter(size_t d0, size_t d1, size_t d2, size_t order, uint32_t mode,
                                double fill, const double *input, size_t input_len,
                                double *output, size_t output_len);

/* The same along one axis: 0, 1 or 2. Orders 0 and 1 copy the input, and so does every order along an axis of
 * length 1, bit for bit. */
uint32_t vurelika_spline_filter1d(size_t d0, size_t d1, size_t d2, size_t order, size_t axis,
                                  uint32_t mode, double fill, const double *input, size_t input_len,
                                  double *output, size_t output_len);

/* The length of an axis that is zoomed by a factor; 0 where zoom would refuse it (VURELIKA_LENGTH,
 * VURELIKA_FACTOR, VURELIKA_SLICE, VURELIKA_OUTPUT_LENGTH). Of length 1 it is 1 for factors above 0.5 and below
 * 1.5, else 0; of a longer axis never 1. */
size_t vurelika_zoom_length(size_t length, double factor);

/* How many places of work vurelika_shift and vurelika_zoom need: as many as the input has, or in Nearest and
 * Replicate as many as it has with 24 added to each axis longer than 1. 1 by 2 by 4 voxels need 1 * 26 * 28 =
 * 728 there. 0 means one of two things: they need none, which is so without prefilter and below order 2; or they
 * refuse whatever work is (VURELIKA_MODE, VURELIKA_ORDER, VURELIKA_LENGTH). Later refusals are not looked for,
 * so it may be more than any call takes: for 4,096 by 4,096 by 4,096 voxels with prefilter 2^36, where a call
 * gives VURELIKA_COUNT. */
size_t vurelika_work_count(size_t d0, size_t d1, size_t d2, size_t order, uint32_t prefilter,
                           uint32_t mode);

/* Files of NumPy: .npy of version 1.0 that hold little-endian f64 ('<f8') in C order on three axes. A file
 * is a buffer of bytes; opening, reading and writing it is the caller's.
 *
 * What is taken numpy.load takes too, with the same lengths and bits: the keys of the header in any order,
 * each once, either quotes, spaces, tabs and newlines between its signs, with the last comma or without; as
 * with numpy.load, at most 10,000 bytes of it, and lengths whose product, zeros left out, is below 2^60. Any
 * other file, data bytes missing or left over included, is VURELIKA_NOT_NPY. Voxels are moved, not looked
 * at: a NaN keeps its bits, and meets VURELIKA_VALUE where it is resampled.
 *
 * dims has exactly 3 places and takes the lengths of the file's axes, whether or not vurelika_npy_read
 * would take them. Refusals: VURELIKA_NOT_NPY, VURELIKA_BUFFER; dims then holds what it held. */
uint32_t vurelika_npy_dims(const uint8_t *bytes, size_t bytes_len, size_t *dims, size_t dims_len);

/* The voxels of a file. volume has exactly as many places as the file has voxels. Refusals:
 * VURELIKA_NOT_NPY, VURELIKA_LENGTH, VURELIKA_COUNT, VURELIKA_BUFFER; volume then holds what it held. */
uint32_t vurelika_npy_read(const uint8_t *bytes, size_t bytes_len, double *volume, size_t volume_len);

/* How many bytes the file of a volume of d0 by d1 by d2 voxels has: a header of 128, and 8 for each voxel.
 * 0 where vurelika_npy_write refuses the lengths (VURELIKA_LENGTH, VURELIKA_COUNT). */
size_t vurelika_npy_size(size_t d0, size_t d1, size_t d2);

/* Writes the file of a volume. volume has d0 * d1 * d2 places, bytes exactly vurelika_npy_size of them.
 * Refusals: VURELIKA_LENGTH, VURELIKA_COUNT, VURELIKA_BUFFER; bytes then holds what it held. */
uint32_t vurelika_npy_write(size_t d0, size_t d1, size_t d2, const double *volume, size_t volume_len,
                            uint8_t *bytes, size_t bytes_len);

#ifdef __cplusplus
}
#endif

#endif
