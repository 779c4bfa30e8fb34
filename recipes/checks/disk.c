// A library to load before a program (LD_PRELOAD) that stands for a bad disk: one call on a file whose name ends in .part, or in .torn
// to read, goes wrong. DISK says which, and how:
//
//     write:N     from the Nth write on, counted from 1, the disk is full: that one takes half of its bytes, later ones none
//     read:N      from the Nth read on a read fails
//     fsync       the bytes can't be put on the disk
//     rename      the rename fails
//     die:N       the program is killed in the middle of the Nth write
//     before      it is killed before the rename
//     after       it is killed after the rename
#define _GNU_SOURCE
#include <dlfcn.h>
#include <errno.h>
#include <signal.h>
#include <stdio.h>
#include <stdlib.h>
#include <string.h>
#include <unistd.h>

static int is(const char *what) {
    const char *disk = getenv("DISK");
    return disk && strncmp(disk, what, strlen(what)) == 0;
}

static int ends(int fd, const char *with) {
    char link[64], name[4096];
    snprintf(link, sizeof link, "/proc/self/fd/%d", fd);
    ssize_t length = readlink(link, name, sizeof name - 1);
    return length > 5 && memcmp(name + length - 5, with, 5) == 0;
}

static int is_part(int fd) { return ends(fd, ".part"); }

static void die(void) {
    kill(getpid(), SIGKILL);
    pause();
}

static int fails(void) {
    errno = is("write") ? ENOSPC : EIO;
    return -1;
}

ssize_t write(int fd, const void *bytes, size_t size) {
    static int number;
    ssize_t (*real)(int, const void *, size_t) = dlsym(RTLD_NEXT, "write");
    if (!(is("write:") || is("die:")) || !is_part(fd)) return real(fd, bytes, size);
    number++;
    int first = atoi(strchr(getenv("DISK"), ':') + 1);
    if (number < first) return real(fd, bytes, size);
    if (number > first || size < 2) return fails();
    ssize_t written = real(fd, bytes, size / 2);
    if (is("die:")) die();
    return written;
}

ssize_t read(int fd, void *bytes, size_t size) {
    static int number;
    ssize_t (*real)(int, void *, size_t) = dlsym(RTLD_NEXT, "read");
    if (!is("read:") || !ends(fd, ".torn")) return real(fd, bytes, size);
    number++;
    return number < atoi(strchr(getenv("DISK"), ':') + 1) ? real(fd, bytes, size) : fails();
}

int fsync(int fd) {
    return is("fsync") && is_part(fd) ? fails() : ((int (*)(int))dlsym(RTLD_NEXT, "fsync"))(fd);
}

int rename(const char *from, const char *to) {
    if (is("rename")) return fails();
    if (is("before")) die();
    int done = ((int (*)(const char *, const char *))dlsym(RTLD_NEXT, "rename"))(from, to);
    if (is("after")) die();
    return done;
}
