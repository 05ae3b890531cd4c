/* Loaded before a program (LD_PRELOAD), makes one of its growths of memory fail, or one read, or one write
   to the standard output: the one whose number, from 1, stands in REFUSE_GROWTH, REFUSE_READ or
   REFUSE_WRITE. With INTERRUPT_READ and INTERRUPT_WRITE it is as if a signal came. Where it did so it leaves the
   file that REFUSE_MARK names. SHORT_READ and SHORT_WRITE are the most bytes that one read, or one write to the
   standard output, takes; it leaves that file where it held one back by them. */
#define _GNU_SOURCE
#include <errno.h>
#include <fcntl.h>
#include <stdlib.h>
#include <sys/syscall.h>
#include <unistd.h>

extern void *__libc_malloc(size_t size);
extern void *__libc_realloc(void *old, size_t size);

struct fault {
    long number; /* which one fails; 0 for none */
    long seen;
};

static struct fault growth, input, output, input_interrupted, output_interrupted;
static size_t most_read, most_written; /* 0 for no bound */
static const char *mark;

static long number_in(const char *name) {
    const char *text = getenv(name);
    return text ? atol(text) : 0;
}

__attribute__((constructor)) static void begin(void) {
    growth.number = number_in("REFUSE_GROWTH");
    input.number = number_in("REFUSE_READ");
    output.number = number_in("REFUSE_WRITE");
    input_interrupted.number = number_in("INTERRUPT_READ");
    output_interrupted.number = number_in("INTERRUPT_WRITE");
    most_read = (size_t)number_in("SHORT_READ");
    most_written = (size_t)number_in("SHORT_WRITE");
    mark = getenv("REFUSE_MARK");
}

static void leave_mark(void) {
    if (mark)
        syscall(SYS_close, syscall(SYS_openat, AT_FDCWD, mark, O_CREAT | O_WRONLY, 0600));
}

/* whether this one is to fail */
static int fails(struct fault *fault, int why) {
    if (!fault->number || ++fault->seen != fault->number)
        return 0;
    leave_mark();
    errno = why;
    return 1;
}

void *malloc(size_t size) {
    return fails(&growth, ENOMEM) ? NULL : __libc_malloc(size);
}

void *realloc(void *old, size_t size) {
    return fails(&growth, ENOMEM) ? NULL : __libc_realloc(old, size);
}

/* how many bytes of this many are taken at once */
static size_t bounded(size_t size, size_t most) {
    if (!most || size <= most)
        return size;
    leave_mark();
    return most;
}

ssize_t read(int file, void *to, size_t size) {
    if (fails(&input, EIO) || fails(&input_interrupted, EINTR))
        return -1;
    return syscall(SYS_read, file, to, bounded(size, most_read));
}

ssize_t write(int file, const void *from, size_t size) {
    if (file != STDOUT_FILENO)
        return syscall(SYS_write, file, from, size);
    if (fails(&output, EIO) || fails(&output_interrupted, EINTR))
        return -1;
    return syscall(SYS_write, file, from, bounded(size, most_written));
}
