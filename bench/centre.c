/* The centre of a block in plain C, and its number: what the library's are held against. */
#include <stddef.h>
#include <stdint.h>

size_t plain_centre_number(int32_t anchor, size_t start, size_t width)
{
    if (anchor < -1024 || anchor > 1024)
        return 17;
    if (width < 1 || width > 64)
        return 3;
    if (start < 1 || start > 16384)
        return 7;
    return 0;
}

double plain_centre(int32_t anchor, size_t start, size_t width)
{
    if (plain_centre_number(anchor, start, width) != 0)
        return 0.0;
    return 193100.0 + 6.25 * (anchor + 2 * ((int32_t)start - 1) + (int32_t)width);
}
