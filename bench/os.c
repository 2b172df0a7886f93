// What the kit's own C code does for programs on x86-64, for a processor that it was not compiled
// for: the words of the command line, opening a file, and the number of the last error.
#include <errno.h>
#include <fcntl.h>
#include <stddef.h>
#include <string.h>

static size_t count;
static char **words;

// The C library hands the command line to a constructor too.
__attribute__((constructor)) static void begin(int argc, char **argv) {
    count = (size_t)argc;
    words = argv;
}

size_t rattle_arg_count(void) { return count; }

// The length of a word, which is copied; -1 where there is no such word, -2 where the room is too
// short.
long rattle_arg(size_t i, char *room, size_t length) {
    if (i >= count) return -1;
    size_t n = strlen(words[i]);
    memcpy(room, words[i], n < length ? n : length);
    return n <= length ? (long)n : -2;
}

int rattle_open_to_read(const char *path) { return open(path, O_RDONLY | O_NOCTTY | O_CLOEXEC); }

int rattle_errno(void) { return errno; }

void rattle_set_errno(int e) { errno = e; }
