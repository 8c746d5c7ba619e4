/* Zooms the volume of a .npy file, and marks each voxel that comes out.
 * usage: vurelika zoom IN.npy OUT.npy --zoom X,Y,Z --order N --mode NAME [--fill F] [--no-prefilter]
 *     [--coverage CODES.npy] [--dry-run] [--force]
 *
 * --zoom X,Y,Z           the factor of each axis: a length times its factor is rounded, a half to even. An axis
 *                        of 1 voxel, as a radiograph has, takes factors above 0.5 and below 1.5, and is left as
 *                        it is; a longer one must come out with 2 to 4,096 voxels
 * The other options are those of shift: vurelika help shift. */
#include "common/resampling.h"

int main(int argc, char **argv)
{
    return resample_file(&zoom_entry, argc, argv);
}
