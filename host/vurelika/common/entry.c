#include "entry.h"

#include "vurelika.h"

static size_t same_length(size_t length, double shift)
{
    (void)shift;
    return length;
}

const struct entry shift_entry = {
    .resample = vurelika_shift,
    .voxel = vurelika_shift_voxel,
    .point = vurelika_shift_point,
    .length = same_length,
    .option = "--shift",
    .factor = "shift",
    .taken = "finite and of a size below 2^20",
    .single = "0",
};

const struct entry zoom_entry = {
    .resample = vurelika_zoom,
    .voxel = vurelika_zoom_voxel,
    .point = vurelika_zoom_point,
    .length = vurelika_zoom_length,
    .option = "--zoom",
    .factor = "factor",
    .taken = "above 0 and up to 4,096",
    .single = "above 0.5 and below 1.5, so that 1 voxel comes out",
};
