#include "codes_file.h"

#include <stdio.h>
#include <string.h>

#include "volume.h"

/* Where the data begins, and what stands before the header's text: the magic, the version, and the length of
 * the header as two bytes. Three lengths of at most 4,096 always leave room for a last newline. */
enum { DATA = 128, FRONT = 10 };

struct bytes codes_file(const size_t lengths[3], const uint8_t *codes)
{
    size_t count = voxels_of(lengths);
    struct bytes file = {room(DATA + count, 1), DATA + count};
    char header[DATA - FRONT + 1];
    int text = snprintf(header, sizeof header,
                        "{'descr': '|u1', 'fortran_order': False, 'shape': (%zu, %zu, %zu), }", lengths[0],
                        lengths[1], lengths[2]);

    memcpy(file.at, "\x93NUMPY\x01\x00", FRONT - 2);
    file.at[8] = DATA - FRONT;
    file.at[9] = 0;
    memset(file.at + FRONT, ' ', DATA - FRONT);
    memcpy(file.at + FRONT, header, (size_t)text);
    file.at[DATA - 1] = '\n';
    memcpy(file.at + DATA, codes, count);
    return file;
}
