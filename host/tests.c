// The tests of the library. The last line is 'N passed, M failed'; the exit status is 0 where all are passed.
// usage: tests [-s SEED] BOOK..    stored books, NAME.book with the report NAME.report beside it; -s: another seed for the random tests
#include "tests.h"

#include <stdarg.h>
#include <stdio.h>
#include <stdlib.h>
#include <string.h>

void begin(struct tests *t, const char *format, ...)
{
    va_list arguments;
    va_start(arguments, format);
    int length = vsnprintf(t->name, sizeof t->name, format, arguments);
    va_end(arguments);
    t->holds = true;
    CHECK(t, length >= 0 && (size_t)length < sizeof t->name);
}

void end(struct tests *t)
{
    if (t->holds) {
        t->passed++;
    } else {
        t->failed++;
    }
}

void check_at(struct tests *t, bool holds, const char *what, const char *file, int line)
{
    if (!holds && t->holds) {
        (void)printf("failed: %s: %s (%s:%d)\n", t->name, what, file, line);
        t->holds = false;
    }
}

// The seed that is asked for, or the usual one. 0 would give nothing but 0s.
static uint64_t seed_of(const char *text)
{
    uint64_t seed = text == NULL ? 0 : strtoull(text, NULL, 0);
    return seed == 0 ? 20250711 : seed;
}

int main(int argc, char **argv)
{
    struct tests t;
    memset(&t, 0, sizeof t);
    bool is_seeded = argc >= 3 && strcmp(argv[1], "-s") == 0;
    uint64_t seed = seed_of(is_seeded ? argv[2] : NULL);
    int first = is_seeded ? 3 : 1;
    t.sides.state = seed;
    if (!slots_open(&t)) {
        (void)puts("failed: there are no pages for the octets that are lent\n0 passed, 1 failed");
        return 1;
    }
    (void)printf("random numbers start from seed %llu\n", (unsigned long long)seed);
    test_frames(&t);
    test_bus(&t);
    test_scenes(&t);
    test_books(&t, argc - first, argv + first);
    test_random(&t, seed);
    if (!slots_close(&t)) {
        t.failed++;
    }
    bool is_told = printf("%lu passed, %lu failed\n", t.passed, t.failed) >= 0 && fflush(stdout) == 0;
    return is_told && t.failed == 0 && t.passed > 0 ? 0 : 1;
}
