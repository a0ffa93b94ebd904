/* Reads bytes, and writes them in hexadecimal, 16 to a line, as the program's listing has them. For
   bench/exports to compare with: one buffer in, one out, no list kept.

   usage: hex COUNT < BYTES */
#include <stdlib.h>
#include <unistd.h>

enum { IN = 1 << 16, OUT = 3 * IN };

static unsigned char in[IN];
static char out[OUT];

static int put(const char *bytes, size_t count) {
    while (count > 0) {
        ssize_t written = write(1, bytes, count);
        if (written <= 0)
            return 0;
        bytes += written;
        count -= (size_t)written;
    }
    return 1;
}

int main(int given, char **arguments) {
    static const char digits[] = "0123456789abcdef";
    unsigned long long left = given == 2 ? strtoull(arguments[1], 0, 10) : 0;
    /* A buffer has whole lines, but for the last one: reads are filled up. */
    while (left > 0) {
        size_t wanted = left < IN ? (size_t)left : IN, count = 0;
        while (count < wanted) {
            ssize_t more = read(0, in + count, wanted - count);
            if (more <= 0)
                return 1;
            count += (size_t)more;
        }
        for (size_t at = 0; at < count; at++) {
            out[3 * at] = digits[in[at] >> 4];
            out[3 * at + 1] = digits[in[at] & 15];
            out[3 * at + 2] = (at & 15) == 15 || at + 1 == count ? '\n' : ' ';
        }
        if (!put(out, 3 * count))
            return 1;
        left -= count;
    }
    return 0;
}
