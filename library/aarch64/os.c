/* What the proved programs ask of the system on ARM64, for which the toolchain has no archive libos_c.a: errno, the arguments and
   the environment. Their declarations are in the toolchain's rattle/os/src/c.rt. Nothing proves that these keep them. */
#include <errno.h>
#include <stddef.h>
#include <stdint.h>
#include <stdlib.h>
#include <sys/types.h>

extern char **environ;

int32_t rattle_errno(void) { return errno; }

void rattle_set_errno(int32_t error) { errno = error; }

/* Puts a text without its final 0 at the start of `to`, and gives its length: -1 where there is no text, -2 where it does not fit
   and `to` is full. */
static ssize_t put(const char *text, uint8_t *to, size_t room) {
    size_t length = 0;
    if (text == NULL)
        return -1;
    for (; text[length] != '\0'; length++) {
        if (length == room)
            return -2;
        to[length] = (uint8_t)text[length];
    }
    return (ssize_t)length;
}

static size_t count;
static char **words;

/* The arguments, which glibc passes to each constructor before it calls `main`. */
__attribute__((constructor)) static void keep(int argc, char **argv) {
    count = (size_t)argc;
    words = argv;
}

size_t rattle_arg_count(void) { return count; }

/* Argument i. */
ssize_t rattle_arg(size_t i, uint8_t *to, size_t room) { return put(i < count ? words[i] : NULL, to, room); }

/* The value of an environment variable. */
ssize_t rattle_env(const char *name, uint8_t *to, size_t room) { return put(getenv(name), to, room); }

/* Entry i of the environment. */
ssize_t rattle_env_at(size_t i, uint8_t *to, size_t room) {
    char **entry = environ;
    while (entry != NULL && *entry != NULL && i-- > 0)
        entry++;
    return put(entry != NULL ? *entry : NULL, to, room);
}
