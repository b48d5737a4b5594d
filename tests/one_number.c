/* A machine with one more device. Preloaded before the program, it gives all files one number, and has those whose path goes
   through a folder `other` on another device. tests/conftest.py has it built. */
#define _GNU_SOURCE
#include <dlfcn.h>
#include <limits.h>
#include <stdio.h>
#include <stdlib.h>
#include <string.h>
#include <sys/stat.h>

/* Whether the path of a file goes through the folder. An open file has an empty name. */
static int is_on_the_other(int file, const char *name)
{
    char link[64], path[PATH_MAX];
    if (*name == '\0') {
        snprintf(link, sizeof link, "/proc/self/fd/%d", file);
        name = link;
    }
    return realpath(name, path) != NULL && strstr(path, "/other/") != NULL;
}

int statx(int file, const char *restrict name, int flags, unsigned wanted, struct statx *restrict found)
{
    int (*next)(int, const char *, int, unsigned, struct statx *) = dlsym(RTLD_NEXT, "statx");
    int status = next(file, name, flags, wanted, found);
    if (status == 0) {
        found->stx_ino = 7;
        found->stx_dev_minor += is_on_the_other(file, name);
    }
    return status;
}
