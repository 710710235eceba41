/* All that the library needs of libc. These two are leaves that use no stack but their return
   address, so that the figures are the library's own: those of a libc differ by machine, and called
   for the first time they are looked up on the caller's stack. */
#include <stddef.h>

void *memset(void *to, int value, size_t length);
void *memcpy(void *restrict to, const void *restrict from, size_t length);

void *memset(void *to, int value, size_t length)
{
    volatile unsigned char *cell = to;
    while (length-- != 0)
        *cell++ = (unsigned char)value;
    return to;
}

void *memcpy(void *restrict to, const void *restrict from, size_t length)
{
    volatile unsigned char *cell = to;
    const unsigned char *next = from;
    while (length-- != 0)
        *cell++ = *next++;
    return to;
}
