/* Shifts the volume of a .npy file, and marks each voxel that comes out.
 * usage: vurelika shift IN.npy OUT.npy --shift X,Y,Z --order N --mode NAME [--fill F] [--no-prefilter]
 *     [--coverage CODES.npy] [--dry-run] [--force]
 *
 * --shift X,Y,Z          voxels along each axis: what comes out at index i is the input at i - shift. An axis of
 *                        1 voxel, as a radiograph has, takes 0 alone, and is left as it is
 * --order N              0 copies the nearest voxel, 1 to 5 are splines
 * --mode NAME            what stands outside: constant, mirror, nearest, reflect, wrap or replicate.
 *                        For SciPy's mode='nearest' take replicate: nearest is the Rust's, and writes 0.0,
 *                        with code 2, at coordinates at or below -1 (-13 where orders 2 to 5 prefilter).
 *                        For a density take constant: in other modes code 0 does not say that a place lay
 *                        in the scan, and replicate gives it to all places at orders 0 and 1
 * --fill F               in mode constant what is written outside; 0.0 unless given, as SciPy's cval
 * --no-prefilter         orders 2 to 5 take the voxels as coefficients
 * --coverage CODES.npy   writes the code of each voxel too, as bytes
 * --dry-run              resamples in memory, and says what would be refused or written; writes nothing
 * --force                replaces files that are there */
#include "common/resampling.h"

int main(int argc, char **argv)
{
    return resample_file(&shift_entry, argc, argv);
}
