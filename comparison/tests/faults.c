/* Loaded before the C library: tells in the file FAULTS_TOLD of each call that a program makes on files, and has faults.
 * FAULTS is a word and a number, calls being counted from 1:
 *
 *     read, write, fdatasync, fsync, ftruncate   the call of that name with that number, and all behind it, fail; but
 *                                                for those on standard input, output and error, which aren't counted
 *     short                                      the same of writes, which put three bytes at most
 *     before                                     the program is killed before the call with that number, of any name
 *     within                                     or when it is made; a write has put half of its bytes
 */
#define _GNU_SOURCE
#include <errno.h>
#include <fcntl.h>
#include <signal.h>
#include <stdio.h>
#include <stdlib.h>
#include <string.h>
#include <sys/syscall.h>
#include <unistd.h>

static void tell(const char *call, int file) {
    static int told = -1;
    char line[64];
    int length = snprintf(line, sizeof line, "%s %d\n", call, file);
    if (told < 0) {
        told = (int)syscall(SYS_openat, AT_FDCWD, getenv("FAULTS_TOLD"), O_WRONLY | O_APPEND | O_CREAT | O_CLOEXEC, 0600);
        told = (int)syscall(SYS_fcntl, told, F_DUPFD_CLOEXEC, 100); /* the program's files keep their numbers */
    }
    if (syscall(SYS_write, told, line, (size_t)length) != length) {
        abort();
    }
}

/* Whether FAULTS is the word, with the number or a lower one. */
static int is_asked(const char *word, int number) {
    const char *faults = getenv("FAULTS");
    size_t length = strlen(word);
    return faults && strncmp(faults, word, length) == 0 && faults[length] == ' ' && number >= atoi(faults + length);
}

static int all; /* calls so far */

static void end_if(const char *word) {
    if (is_asked(word, all)) {
        kill(getpid(), SIGKILL);
    }
}

/* A call begins: whether it is to fail. */
static int fails(const char *call, int file, int *calls, int reason) {
    tell(call, file);
    all++;
    end_if("before");
    if (file <= 2 || !is_asked(call, ++*calls)) {
        return 0;
    }
    errno = reason;
    return 1;
}

static long made(long result) {
    end_if("within");
    return result;
}

ssize_t read(int file, void *bytes, size_t count) {
    static int calls;
    return fails("read", file, &calls, EIO) ? -1 : made(syscall(SYS_read, file, bytes, count));
}

ssize_t write(int file, const void *bytes, size_t count) {
    static int calls;
    if (fails("write", file, &calls, ENOSPC)) {
        return -1;
    }
    if (is_asked("within", all)) {
        count /= 2;
    } else if (file > 2 && count > 3 && is_asked("short", calls)) {
        count = 3;
    }
    return made(syscall(SYS_write, file, bytes, count));
}

int fdatasync(int file) {
    static int calls;
    return fails("fdatasync", file, &calls, EIO) ? -1 : (int)made(syscall(SYS_fdatasync, file));
}

int fsync(int file) {
    static int calls;
    return fails("fsync", file, &calls, EIO) ? -1 : (int)made(syscall(SYS_fsync, file));
}

int ftruncate(int file, off_t length) {
    static int calls;
    return fails("ftruncate", file, &calls, EIO) ? -1 : (int)made(syscall(SYS_ftruncate, file, length));
}
