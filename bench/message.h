/* The messages of HTTP that both ends of the load read. */
#include <stdlib.h>
#include <string.h>

/* The length of the message that begins there, or 0 where it isn't whole. */
static size_t message(const char *at, size_t length) {
    const char *end = memmem(at, length, "\r\n\r\n", 4);
    if (!end)
        return 0;
    const char *field = memmem(at, end - at, "Content-Length: ", 16);
    size_t whole = end - at + 4 + (field ? strtoul(field + 16, NULL, 10) : 0);
    return whole <= length ? whole : 0;
}
