/*
 * For LD_PRELOAD before desk: sees the calls that change the folder, writes their order to the file that POWER_LOG
 * names, and ends the process at the call that POWER_CALL numbers, before it is made; at a write, half of it is made.
 * With POWER_LOSS it then does what a loss of power may do: `data` takes from every file what was not flushed, `names`
 * undoes a renaming after which the folder was not flushed, `both` does both.
 */
#define _GNU_SOURCE

#include <fcntl.h>
#include <signal.h>
#include <stdarg.h>
#include <stdio.h>
#include <stdlib.h>
#include <string.h>
#include <sys/syscall.h>
#include <unistd.h>

#define FDS 64
#define NAME 64
#define UNDO "undo"

static int folder = -1;

/* By descriptor, the name of a file that is being written, else empty. */
static char writing[FDS][NAME];

/* Names of files that are not flushed, or empty. */
static char unflushed[FDS][NAME];

/* The name that a renaming gave, while the folder is not flushed; and whether it replaced a file, which UNDO then is. */
static char renamed[NAME];
static int replaced;

static void forget(const char *name)
{
    int i;
    for (i = 0; i < FDS; i++) {
        if (strcmp(unflushed[i], name) == 0) {
            unflushed[i][0] = '\0';
        }
    }
}

static void remember(const char *name)
{
    int i;
    forget(name);
    for (i = 0; i < FDS; i++) {
        if (unflushed[i][0] == '\0') {
            snprintf(unflushed[i], NAME, "%s", name);
            return;
        }
    }
    abort();
}

static void note(const char *call, const char *name, const char *more)
{
    const char *path = getenv("POWER_LOG");
    char line[256];
    int length = snprintf(line, sizeof line, "%s %s%s%s\n", call, name, *more ? " " : "", more);
    int fd;
    if (path != NULL) {
        fd = (int)syscall(SYS_openat, AT_FDCWD, path, O_WRONLY | O_CREAT | O_APPEND, 0666);
        if (fd < 0 || syscall(SYS_write, fd, line, length) != length) {
            abort();
        }
        syscall(SYS_close, fd);
    }
}

/* Ends the process as SIGKILL does, after the loss that is asked for. */
static void die(void)
{
    const char *loss = getenv("POWER_LOSS");
    int data = loss != NULL && strcmp(loss, "names") != 0;
    int names = loss != NULL && strcmp(loss, "data") != 0;
    int i;

    for (i = 0; i < FDS; i++) {
        if (data && unflushed[i][0] != '\0') {
            syscall(SYS_openat, folder, unflushed[i], O_WRONLY | O_TRUNC);
        }
    }
    if (names && renamed[0] != '\0' && replaced) {
        syscall(SYS_renameat, folder, UNDO, folder, renamed);
    } else if (names && renamed[0] != '\0') {
        syscall(SYS_unlinkat, folder, renamed, 0);
    }
    syscall(SYS_unlinkat, folder, UNDO, 0);
    raise(SIGKILL);
}

/* Whether this call, counted from 1, is the one to end at. */
static int is_last(void)
{
    static int count;
    const char *last = getenv("POWER_CALL");
    count++;
    return last != NULL && count == atoi(last);
}

static void seen(const char *call, const char *name, const char *more)
{
    if (is_last()) {
        die();
    }
    note(call, name, more);
}

static int is_writing(int fd)
{
    return fd >= 0 && fd < FDS && writing[fd][0] != '\0';
}

int openat(int in, const char *name, int flags, ...)
{
    va_list arguments;
    unsigned mode;
    int fd;

    va_start(arguments, flags);
    mode = (flags & O_CREAT) != 0 ? va_arg(arguments, unsigned) : 0;
    va_end(arguments);
    if ((flags & O_CREAT) != 0) {
        folder = in;
        seen("open", name, "");
    }
    fd = (int)syscall(SYS_openat, in, name, flags, mode);
    if (fd >= 0 && fd < FDS && (flags & O_CREAT) != 0) {
        snprintf(writing[fd], NAME, "%s", name);
        remember(name);
    }
    return fd;
}

ssize_t write(int fd, const void *bytes, size_t length)
{
    if (is_writing(fd)) {
        if (is_last()) {
            syscall(SYS_write, fd, bytes, length / 2);
            die();
        }
        note("write", writing[fd], "");
        remember(writing[fd]);
    }
    return (ssize_t)syscall(SYS_write, fd, bytes, length);
}

int fsync(int fd)
{
    int answer;

    seen("fsync", is_writing(fd) ? writing[fd] : "folder", "");
    answer = (int)syscall(SYS_fsync, fd);
    if (is_writing(fd)) {
        forget(writing[fd]);
    } else {
        renamed[0] = '\0';
        syscall(SYS_unlinkat, folder, UNDO, 0);
    }
    return answer;
}

int close(int fd)
{
    if (is_writing(fd)) {
        seen("close", writing[fd], "");
        writing[fd][0] = '\0';
    }
    return (int)syscall(SYS_close, fd);
}

int renameat(int from, const char *old, int to, const char *name)
{
    int i;

    seen("rename", old, name);
    syscall(SYS_unlinkat, to, UNDO, 0);
    replaced = syscall(SYS_linkat, to, name, to, UNDO, 0) == 0;
    snprintf(renamed, NAME, "%s", name);
    forget(name);
    for (i = 0; i < FDS; i++) {
        if (strcmp(writing[i], old) == 0) {
            snprintf(writing[i], NAME, "%s", name);
        }
        if (strcmp(unflushed[i], old) == 0) {
            snprintf(unflushed[i], NAME, "%s", name);
        }
    }
    return (int)syscall(SYS_renameat, from, old, to, name);
}
