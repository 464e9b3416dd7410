/* Notes when each pread and pwrite of a program began and ended, for bench/crew.py: preloaded, it writes a line
   `BEGIN END FD` in nanoseconds for each, in the order of their ends, to the file that CLOCK names, and first and last
   a line with the time at which the program was loaded and left. */
#define _GNU_SOURCE
#include <dlfcn.h>
#include <stdio.h>
#include <stdlib.h>
#include <sys/syscall.h>
#include <sys/types.h>
#include <time.h>
#include <unistd.h>

#define MOST 1000000

static struct note { long begin, end; int fd; } notes[MOST];
static long count, loaded;
static ssize_t (*next_read)(int, void *, size_t, off64_t);
static ssize_t (*next_write)(int, const void *, size_t, off64_t);

static long now(void)
{
    struct timespec time;
    clock_gettime(CLOCK_MONOTONIC, &time);
    return time.tv_sec * 1000000000L + time.tv_nsec;
}

static void note(int fd, long begin)
{
    long end = now(), place = __atomic_fetch_add(&count, 1, __ATOMIC_SEQ_CST);
    if (place < MOST)
        notes[place] = (struct note){begin, end, fd};
}

__attribute__((constructor)) static void load(void)
{
    next_read = dlsym(RTLD_NEXT, "pread64");
    next_write = dlsym(RTLD_NEXT, "pwrite64");
    loaded = now();
}

ssize_t pread64(int fd, void *bytes, size_t length, off64_t at)
{
    long begin = now();
    ssize_t answer = next_read(fd, bytes, length, at);
    note(fd, begin);
    return answer;
}

ssize_t pwrite64(int fd, const void *bytes, size_t length, off64_t at)
{
    long begin = now();
    ssize_t answer = next_write(fd, bytes, length, at);
    note(fd, begin);
    return answer;
}

ssize_t pread(int fd, void *bytes, size_t length, off_t at) { return pread64(fd, bytes, length, at); }
ssize_t pwrite(int fd, const void *bytes, size_t length, off_t at) { return pwrite64(fd, bytes, length, at); }

static void leave(void)
{
    long left = now(), most = count < MOST ? count : MOST;
    FILE *file = getenv("CLOCK") ? fopen(getenv("CLOCK"), "w") : NULL;
    if (!file)
        return;
    fprintf(file, "%ld %ld -1\n", loaded, loaded);
    for (long place = 0; place < most; place++)
        fprintf(file, "%ld %ld %d\n", notes[place].begin, notes[place].end, notes[place].fd);
    fprintf(file, "%ld %ld -1\n", left, left);
    fclose(file);
}

/* the program ends so, and runs no destructor */
void _exit(int status)
{
    leave();
    syscall(SYS_exit_group, status);
    __builtin_unreachable();
}
