/* What library/aarch64 has in place of the toolchain's C, called at its edges. What comes is printed: tests/test_arm64.py compares it with
   what the toolchain's own archives print. The arguments and the environment are those that it gives. */
#include <stdbool.h>
#include <stddef.h>
#include <stdint.h>
#include <stdio.h>
#include <string.h>
#include <sys/types.h>

struct tried {
    bool ok;
    void *p;
};

struct tried rattle_alloc(size_t n, size_t a);
struct tried rattle_realloc(void *p, size_t kept, size_t n, size_t a);
void rattle_dealloc(void *p);
int32_t rattle_errno(void);
void rattle_set_errno(int32_t error);
size_t rattle_arg_count(void);
ssize_t rattle_arg(size_t i, uint8_t *to, size_t room);
ssize_t rattle_env(const char *name, uint8_t *to, size_t room);
ssize_t rattle_env_at(size_t i, uint8_t *to, size_t room);

enum { ROOM = 8 };
static uint8_t to[ROOM + 1];

/* what a call gave, and what it put there; dots are what it left alone */
static void told(const char *call, size_t room, ssize_t length) {
    printf("%s, room %zu: %zd %s\n", call, room, length, (char *)to);
    memset(to, '.', ROOM);
}

static void texts(size_t room) {
    for (size_t i = 1; i <= rattle_arg_count(); i++)
        told("argument", room, rattle_arg(i, to, room));
    told("variable", room, rattle_env("SOME", to, room));
    told("empty variable", room, rattle_env("EMPTY", to, room));
    told("no variable", room, rattle_env("NONE", to, room));
    for (size_t i = 0; i < 4; i++)
        told("entry", room, rattle_env_at(i, to, room));
}

static void block(const char *call, struct tried block) {
    printf("%s: %d, at no null %d, aligned %d\n", call, block.ok, block.p != NULL, !block.ok || (uintptr_t)block.p % 16 == 0);
}

static void memory(size_t n) {
    struct tried it = rattle_alloc(n, 8), next;
    block("new", it);
    if (!it.ok)
        return;
    memset(it.p, 'x', n);
    next = rattle_realloc(it.p, n, SIZE_MAX / 2, 8);
    block("grown too far", next);
    next = rattle_realloc(it.p, n, 3 * n, 8);
    block("grown", next);
    printf("its bytes stayed %d\n", n == 0 || (*(char *)next.p == 'x' && ((char *)next.p)[n - 1] == 'x'));
    next = rattle_realloc(next.p, 0, 0, 8);
    block("emptied", next);
    rattle_dealloc(next.p);
}

int main(void) {
    memset(to, '.', ROOM);
    printf("%zu arguments\n", rattle_arg_count());
    for (size_t room = 0; room <= ROOM; room++)
        texts(room);
    for (size_t n = 0; n < 1 << 20; n = 5 * n + 1)
        memory(n);
    memory(SIZE_MAX / 2);
    rattle_set_errno(7);
    printf("errno %d\n", rattle_errno());
    return 0;
}
