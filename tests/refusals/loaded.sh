# shellcheck shell=sh
# shellcheck disable=SC2154 # variables that check-refusals.sh sets
# Refusal of memory growth, for check-refusals.sh: a library in C, loaded into a program. It refuses the growth with the number
# REFUSED, gives the program its input one byte a read, and reports how many bytes were read at the refusal. It can also discard
# the output after byte MUTED, and refuse renames after byte FAILING, until the next byte is read; 0 is before the first byte. A
# variable that is not set refuses nothing. Uses `scratch`, the working folder, and `fail` of check-refusals.sh.

# Writes the file in C, and builds the library from it.
build_refuse() {
    cat >refuse.c <<'END'
#define _GNU_SOURCE
#include <errno.h>
#include <fcntl.h>
#include <stdio.h>
#include <stdlib.h>
#include <sys/syscall.h>
#include <unistd.h>

extern void *__libc_malloc(size_t);
extern void *__libc_calloc(size_t, size_t);
extern void *__libc_realloc(void *, size_t);
extern void *__libc_memalign(size_t, size_t);

static long refused, muted, failing;         /* the growth; the bytes after which output is lost, and renames fail */
static long growths, bytes, refused_at = -1; /* counts so far; the bytes read at the refusal */

static long number_of(const char *name) {
    const char *word = getenv(name);
    return word ? atol(word) : -1;
}

__attribute__((constructor)) static void begin(void) {
    refused = number_of("REFUSED");
    muted = number_of("MUTED");
    failing = number_of("FAILING");
}

__attribute__((destructor)) static void end(void) {
    char line[40];
    int length = snprintf(line, sizeof line, "%ld\n", refused_at);
    int file = open(getenv("TOLD"), O_WRONLY | O_CREAT | O_TRUNC, 0600);
    if (syscall(SYS_write, file, line, length) != length) _exit(99);
    close(file);
}

static int is_refused(void) {
    if (++growths != refused) return 0;
    refused_at = bytes;
    errno = ENOMEM;
    return 1;
}

void *malloc(size_t size) { return is_refused() ? NULL : __libc_malloc(size); }
void *calloc(size_t count, size_t size) { return is_refused() ? NULL : __libc_calloc(count, size); }
void *realloc(void *old, size_t size) { return is_refused() ? NULL : __libc_realloc(old, size); }
void *memalign(size_t to, size_t size) { return is_refused() ? NULL : __libc_memalign(to, size); }
void *aligned_alloc(size_t to, size_t size) { return memalign(to, size); }

int posix_memalign(void **place, size_t to, size_t size) {
    void *found = memalign(to, size);
    if (!found) return ENOMEM;
    *place = found;
    return 0;
}

ssize_t read(int file, void *to, size_t count) {
    ssize_t got = syscall(SYS_read, file, to, file == 0 && count > 1 ? 1 : count);
    if (file == 0 && got > 0) bytes += got;
    return got;
}

ssize_t write(int file, const void *from, size_t count) {
    return file == 1 && bytes == muted ? (ssize_t)count : syscall(SYS_write, file, from, count);
}

int rename(const char *from, const char *to) {
    if (failing != 0 && bytes != failing) return syscall(SYS_rename, from, to);
    failing = failing ? failing : -1;
    errno = ENOMEM; /* so the last row tells the cause of a refused growth */
    return -1;
}
END
    cc -O2 -Wall -shared -fPIC -o refuse.so refuse.c
}

# Runs a command with the library and these variables, a minute at most. The file `told` gets the number of input bytes read at
# the refusal; -1 without a refusal; nothing if the command did not end by itself.
loaded() { # VARIABLE.. COMMAND..
    : >"$scratch/told"
    # timeout itself is not refused memory
    timeout 60 env "TOLD=$scratch/told" "LD_PRELOAD=$scratch/refuse.so" "$@"
}

# Runs a command with each growth refused in turn, until none is. Each run adds a line to `runs`: the growth's number, the
# status, the content of `told`, the first line of standard error, and the lines of standard output, joined by bars.
sweep() { # INPUT COMMAND..
    input=$1 number=0 refused_at=''
    shift
    : >runs
    while [ "$refused_at" != -1 ]; do
        number=$((number + 1)) status=0
        loaded "REFUSED=$number" "$@" <"$input" >out 2>err || status=$?
        IFS= read -r refused_at <told || :
        IFS= read -r error <err || error=''
        line=''
        while IFS= read -r part; do line=$line${line:+|}$part; done <out
        printf '%s\t%s\t%s\t%s\t%s\n' "$number" "$status" "$refused_at" "$error" "$line" >>runs
        # no run has so many growths
        if [ "$number" -ge 5000 ]; then
            fail "$*: 5000 growths are not all"
            return
        fi
    done
}

# Adds the kinds of runs on standard input to the counts; lines that begin with FAILS are printed.
count_kinds() { # NAME
    while IFS= read -r kind; do
        case $kind in
        FAILS*) fail "$1, ${kind#FAILS }" ;;
        *) echo "$kind" >>kinds ;;
        esac
    done
}

