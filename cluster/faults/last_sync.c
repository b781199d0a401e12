// For a redis-server, by LD_PRELOAD: notes how long each file was when it was synced last, as a number in a file beside it (FILE.synced).
#define _GNU_SOURCE
#include <dlfcn.h>
#include <fcntl.h>
#include <limits.h>
#include <stdio.h>
#include <sys/stat.h>
#include <unistd.h>

static void note(int file, const struct stat *before) {
    char name[PATH_MAX], link[64], text[32];
    snprintf(link, sizeof link, "/proc/self/fd/%d", file);
    ssize_t length = readlink(link, name, sizeof name - 8);
    if (length <= 0 || !S_ISREG(before->st_mode)) {
        return;
    }
    snprintf(name + length, 8, ".synced");
    int notes = open(name, O_WRONLY | O_CREAT | O_CLOEXEC, 0644);
    if (notes >= 0) {
        int size = snprintf(text, sizeof text, "%020lld\n", (long long)before->st_size);
        if (pwrite(notes, text, (size_t)size, 0) != size) {
            unlink(name);
        }
        close(notes);
    }
}

static int sync_by(const char *name, int file) {
    struct stat before;
    int is_known = fstat(file, &before) == 0;
    int done = ((int (*)(int))dlsym(RTLD_NEXT, name))(file);
    if (done == 0 && is_known) {
        note(file, &before);
    }
    return done;
}

int fsync(int file) {
    return sync_by("fsync", file);
}

int fdatasync(int file) {
    return sync_by("fdatasync", file);
}
