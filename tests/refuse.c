/* Calls that fail, for tests/refusals.py, which loads this before the C library.
 *
 * REFUSE names the calls: memory (malloc and realloc), open, read or write. Those of the program are counted from 1,
 * and REFUSE_MANY of them, from number REFUSE_AT on, fail with the error REFUSE_AS; where that is 0, a read or a
 * write moves one byte of those it could. Each of these writes one byte to the descriptor REFUSE_TO. All others are
 * those of the C library (glibc).
 */

#include <errno.h>
#include <fcntl.h>
#include <stdarg.h>
#include <stddef.h>
#include <stdlib.h>
#include <string.h>
#include <sys/types.h>
#include <sys/syscall.h>
#include <unistd.h>

void *__libc_malloc(size_t size);
void *__libc_realloc(void *old, size_t size);

static const char *refused = "";
static long first, many, calls;
static int error, to;

static long number(const char *name)
{
    const char *text = getenv(name);
    return text ? atol(text) : 0;
}

/* What is called before this, and with it before main, isn't counted. */
__attribute__((constructor)) static void begin(void)
{
    first = number("REFUSE_AT");
    many = number("REFUSE_MANY");
    error = (int)number("REFUSE_AS");
    to = (int)number("REFUSE_TO");
    refused = getenv("REFUSE") ? getenv("REFUSE") : "";
}

/* Beside these, a program that runs may set this to n: the nth call from then on fails, and this is 0 again. */
long refuse_soon;

static int is_refused(const char *call)
{
    if (strcmp(call, refused) != 0)
        return 0;
    if (refuse_soon > 0 && --refuse_soon == 0) {
        errno = error;
        return 1;
    }
    calls++;
    if (calls < first || calls - first >= many)
        return 0;
    if (syscall(SYS_write, to, "r", (size_t)1) != 1)
        abort();
    errno = error;
    return 1;
}

void *malloc(size_t size)
{
    return is_refused("memory") ? NULL : __libc_malloc(size);
}

void *realloc(void *old, size_t size)
{
    return is_refused("memory") ? NULL : __libc_realloc(old, size);
}

int open(const char *path, int flags, ...)
{
    va_list more;
    va_start(more, flags);
    int mode = flags & O_CREAT ? va_arg(more, int) : 0;
    va_end(more);
    return is_refused("open") ? -1 : (int)syscall(SYS_openat, AT_FDCWD, path, flags, mode);
}

static ssize_t move(long call, const char *name, int descriptor, const void *bytes, size_t size)
{
    if (!is_refused(name))
        return syscall(call, descriptor, bytes, size);
    return error ? -1 : syscall(call, descriptor, bytes, size > 0 ? (size_t)1 : size);
}

ssize_t read(int from, void *bytes, size_t size)
{
    return move(SYS_read, "read", from, bytes, size);
}

ssize_t write(int into, const void *bytes, size_t size)
{
    return move(SYS_write, "write", into, bytes, size);
}
