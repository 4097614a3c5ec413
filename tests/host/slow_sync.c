/* A library to be preloaded: each sync of the process takes half a second, as on a busy or slow disk. With the variable SLOW_CUT, a file
 * that was cut stays so for five seconds. */
#include <dlfcn.h>
#include <fcntl.h>
#include <stdlib.h>
#include <unistd.h>

enum { SLOW_US = 500000, SLOW_CUT_S = 5 };

int fsync(int file) {
    int (*call)(int);
    *(void **)&call = dlsym(RTLD_NEXT, "fsync");
    usleep(SLOW_US);
    return call(file);
}

int ftruncate(int file, off_t length) {
    int (*call)(int, off_t);
    *(void **)&call = dlsym(RTLD_NEXT, "ftruncate");
    int answer = call(file, length);
    if (getenv("SLOW_CUT")) sleep(SLOW_CUT_S);
    return answer;
}

int sync_file_range(int file, off64_t from, off64_t size, unsigned flags) {
    int (*call)(int, off64_t, off64_t, unsigned);
    *(void **)&call = dlsym(RTLD_NEXT, "sync_file_range");
    usleep(SLOW_US);
    return call(file, from, size, flags);
}
