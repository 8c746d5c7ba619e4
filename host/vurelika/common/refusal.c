#include "refusal.h"

#include "vurelika.h"

const char *refusal_meaning(uint32_t number)
{
    switch (number) {
    case VURELIKA_DONE:
        return "done";
    case VURELIKA_NOT_NPY:
        return "the bytes are no whole .npy file of version 1.0, '<f8', C order and three axes";
    case VURELIKA_ORDER:
        return "the order is not one that this function has";
    case VURELIKA_AXIS:
        return "the axis number is above 2";
    case VURELIKA_LENGTH:
        return "an input axis has length 0, or is longer than 4,096";
    case VURELIKA_FACTOR:
        return "a shift or a zoom factor is not finite or out of range";
    case VURELIKA_SLICE:
        return "an axis of length 1 has a shift other than 0, or a zoom to a length other than 1";
    case VURELIKA_OUTPUT_LENGTH:
        return "an axis longer than 1 would come out shorter than 2 or longer than 4,096";
    case VURELIKA_COUNT:
        return "input, output or work would have more than 2^27 places";
    case VURELIKA_BUFFER:
        return "a buffer has the wrong number of places";
    case VURELIKA_VALUE:
        return "the fill or a voxel is not finite, or its size exceeds 2^100";
    case VURELIKA_BESIDE:
        return "at order 0 a coordinate is kept, but its nearest voxel lies outside";
    case VURELIKA_INDEX:
        return "the output index lies outside the output";
    case VURELIKA_MODE:
        return "the mode is none of the six";
    default:
        return "no number of this library";
    }
}
