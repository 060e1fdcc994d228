/* What the C tests share: expectations that are counted, and areas that must stay as they were. */
#include <stdint.h>
#include <stdio.h>

enum { JUNK = 0xA5 };

static int tried, wrong;

static void expect(const char *what, uint64_t answer, uint64_t wanted)
{
    tried++;
    if (answer != wanted) {
        printf("%s: %llu and not %llu\n", what, (unsigned long long)answer, (unsigned long long)wanted);
        wrong++;
    }
}

/* Whether every byte of an area is the same. */
static inline int all(const void *area, size_t len, uint8_t byte)
{
    const uint8_t *bytes = area;
    for (size_t i = 0; i < len; i++)
        if (bytes[i] != byte)
            return 0;
    return 1;
}

/* The last line, and the exit. */
static int summary(void)
{
    printf("%d passed, %d failed\n", tried - wrong, wrong);
    return wrong != 0;
}
