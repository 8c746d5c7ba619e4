#include <ctype.h>
#include <string.h>

#include "ending.h"
#include "refused.h"
#include "vurelika.h"

/* The bytes before a header; the last two of them are its length. */
enum { FRONT = 10 };

/* The signs of a header that are shown, without the blanks at its end; what is not printed is shown as ?. */
struct shown {
    char text[121];
};

static struct shown shown_of(const uint8_t *header, size_t length)
{
    struct shown shown = {""};

    while (length > 0 && isspace(header[length - 1]))
        length--;
    for (size_t i = 0; i < length && i < sizeof shown.text - 1; i++)
        shown.text[i] = isprint(header[i]) ? (char)header[i] : '?';
    return shown;
}

void refuse_file(const char *path, const struct bytes *file)
{
    const uint8_t *at = file->at;

    if (file->length < FRONT)
        refuse(VURELIKA_NOT_NPY, "%s has %zu bytes; a .npy file has more than 10", path, file->length);
    if (memcmp(at, "\x93NUMPY", 6) != 0)
        refuse(VURELIKA_NOT_NPY, "%s does not begin as a .npy file does", path);
    if (at[6] != 1 || at[7] != 0)
        refuse(VURELIKA_NOT_NPY, "%s is of .npy version %u.%u; 1.0 is taken", path, at[6], at[7]);
    size_t length = at[8] + 256u * at[9], rest = file->length - FRONT;

    if (length > rest)
        refuse(VURELIKA_NOT_NPY, "%s ends after %zu of the %zu bytes of its header", path, rest, length);
    refuse(VURELIKA_NOT_NPY,
           "%s has the header %s and %zu bytes of data; taken are '<f8', fortran_order False, three lengths, "
           "and 8 bytes for each voxel",
           path, shown_of(at + FRONT, length).text, rest - length);
}
