"""An allocator that counts, and refuses one of its calls if that is wanted. It stands between a program and the C library."""
import pathlib
import subprocess

CC_SECONDS = 120
SHIM = r"""
#define _GNU_SOURCE
#include <dlfcn.h>
#include <fcntl.h>
#include <stdlib.h>
#include <unistd.h>

static long count, bytes, refused;
static int told;

static int refuses(size_t size) {
    if (!told) {
        const char *text = getenv("REFUSED");
        refused = text ? atol(text) : 0;
        told = 1;
    }
    bytes += size;
    return ++count == refused;
}

void *malloc(size_t size) {
    static void *(*real)(size_t);
    if (!real) real = dlsym(RTLD_NEXT, "malloc");
    return refuses(size) ? 0 : real(size);
}

void *realloc(void *old, size_t size) {
    static void *(*real)(void *, size_t);
    if (!real) real = dlsym(RTLD_NEXT, "realloc");
    return refuses(size) ? 0 : real(old, size);
}

int posix_memalign(void **block, size_t align, size_t size) {
    static int (*real)(void **, size_t, size_t);
    if (!real) real = dlsym(RTLD_NEXT, "posix_memalign");
    return refuses(size) ? 12 : real(block, align, size);
}

static void put(int file, long number, char end) {
    char digits[24];
    int at = 24;
    digits[--at] = end;
    do digits[--at] = '0' + number % 10; while (number /= 10);
    ssize_t done = write(file, digits + at, 24 - at);
    (void)done;
}

__attribute__((destructor)) static void tell(void) {
    const char *name = getenv("COUNTED");
    int file = name ? open(name, O_WRONLY | O_CREAT | O_TRUNC, 0600) : -1;
    if (file < 0) return;
    put(file, count, ' ');
    put(file, bytes, '\n');
    close(file);
}
"""


class Allocator:
    """The allocator, compiled with cc into a folder."""

    def __init__(self, folder):
        source, self.shim, self.counted = (pathlib.Path(folder) / name for name in ("shim.c", "shim.so", "count"))
        source.write_text(SHIM)
        subprocess.run(["cc", "-shared", "-fPIC", "-o", self.shim, source, "-ldl"], check=True, timeout=CC_SECONDS)

    def counting(self):
        """The environment of a run whose calls are counted."""
        return {"LD_PRELOAD": str(self.shim), "COUNTED": str(self.counted)}

    def refusing(self, number):
        """The environment of a run whose call of this number, from 1 on, is refused."""
        return {"LD_PRELOAD": str(self.shim), "REFUSED": str(number)}

    def count(self):
        """How often the last counted run took memory, and how many bytes."""
        return tuple(map(int, self.counted.read_text().split()))
