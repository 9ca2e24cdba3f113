/* Preloaded into a redis-server, this notes beside each file how much of it was synced: in FILE.synced, as a number.
   A test then cuts off the rest, as a machine may that loses its power. Where $SYNC_TAKES is set, the disk is slow: each
   sync of the calls takes so many microseconds more. */
#define _GNU_SOURCE
#include <dlfcn.h>
#include <fcntl.h>
#include <stdio.h>
#include <stdlib.h>
#include <string.h>
#include <sys/stat.h>
#include <unistd.h>

static int synced(const char *name, int file)
{
    struct stat before;
    int known = fstat(file, &before);
    int (*sync)(int) = (int (*)(int))dlsym(RTLD_NEXT, name);
    int result = sync(file);
    char link[64], path[4096], number[32];
    snprintf(link, sizeof link, "/proc/self/fd/%d", file);
    ssize_t length = readlink(link, path, sizeof path - 16);
    if (result == 0 && known == 0 && S_ISREG(before.st_mode) && length > 0) {
        strcpy(path + length, ".synced");
        if (getenv("SYNC_TAKES") && strstr(path, ".incr.aof"))
            usleep(atoi(getenv("SYNC_TAKES")));
        int note = open(path, O_WRONLY | O_CREAT, 0644);
        if (note >= 0) {
            int count = snprintf(number, sizeof number, "%20lld", (long long)before.st_size);
            if (pwrite(note, number, count, 0) != count)
                result = -1;
            close(note);
        }
    }
    return result;
}

int fsync(int file) { return synced("fsync", file); }
int fdatasync(int file) { return synced("fdatasync", file); }
