"""A library that refuses one of a program's requests for memory. It wants gcc, and a program that has no allocator of its own."""
import os
import subprocess

# What the library writes to standard error at the end, where the program made fewer requests.
NOT_REFUSED = b"no request was refused"

SHIM = """
#include <errno.h>
#include <stdlib.h>
#include <unistd.h>
extern void *__libc_malloc(size_t), *__libc_realloc(void *, size_t), *__libc_calloc(size_t, size_t), *__libc_memalign(size_t, size_t);
static long refused = -2, count;
static int fails(void) {
  if (refused == -2) { const char *text = getenv("FAIL_AT"); refused = text ? atol(text) : -1; }
  return refused >= 0 && count++ == refused && (errno = ENOMEM, 1);
}
void *malloc(size_t size) { return fails() ? 0 : __libc_malloc(size); }
void *calloc(size_t many, size_t size) { return fails() ? 0 : __libc_calloc(many, size); }
void *realloc(void *old, size_t size) { return fails() ? 0 : __libc_realloc(old, size); }
void *aligned_alloc(size_t align, size_t size) { return fails() ? 0 : __libc_memalign(align, size); }
__attribute__((destructor)) static void end(void) {
  if (refused >= 0 && count <= refused && write(2, "NOT_REFUSED", sizeof "NOT_REFUSED" - 1) < 0) _exit(9);
}
int posix_memalign(void **place, size_t align, size_t size) {
  if (fails() || !(*place = __libc_memalign(align, size))) return ENOMEM;
  return 0;
}
"""


def built(folder):
    """The library, built in a folder."""
    with open(f"{folder}/shim.c", "w", encoding="utf-8") as file:
        file.write(SHIM.replace("NOT_REFUSED", NOT_REFUSED.decode()))
    subprocess.run(["gcc", "-shared", "-fPIC", "-O1", "-o", f"{folder}/shim.so", f"{folder}/shim.c"], check=True)
    return os.path.abspath(f"{folder}/shim.so")


def environment(library, at):
    """In which a program's request of this number, counted from 0, is refused."""
    return {"LD_PRELOAD": library, "FAIL_AT": str(at)}
