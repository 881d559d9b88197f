/*
 * A settlement desk: keeps a year's ledger and its results in a folder, as docs/OPERATING.md says.
 *
 *   desk open FOLDER BLOCK          opens a year in an empty folder
 *   desk settle FOLDER FILE...      settles interval files, in this order
 *   desk show FOLDER                says which ledger was saved last, and where it stands
 *   desk ledger FOLDER              writes that ledger to standard output
 *   desk result FOLDER INTERVAL     writes the result of a settled interval to standard output
 *   desk back FOLDER NEW INTERVAL   copies what was saved before INTERVAL to the empty folder NEW, to settle from there
 *
 * Each accepted call leaves one file in the folder, a save: the ledger, the result of the call and the SHA-256 of both.
 * Its name is word 3 of the ledger, the earliest interval still accepted: 001001.save, and 000000.save of an opening.
 * The file `last` has the name and the SHA-256 of the save that counts, as sha256sum writes them: `sha256sum -c last`.
 * A save is whole on disk before `last` names it. A loss of power leaves at most one save that `last` does not name;
 * the file that it came from is settled again, and gives the same bytes.
 *
 * Exit status: 0; 1 if the module refused a block or file; 2 if something else is wrong. It stops at the first file
 * that is refused, since an interval cannot be settled once a later one is.
 *
 * cc -Iinclude examples/desk.c target/staticlib/libnpa.a -o desk
 */
#define _POSIX_C_SOURCE 200809L

#include "npa.h"

#include "sha256.h"

#include <dirent.h>
#include <errno.h>
#include <fcntl.h>
#include <inttypes.h>
#include <signal.h>
#include <stdarg.h>
#include <stdio.h>
#include <stdlib.h>
#include <sys/file.h>
#include <unistd.h>

#define RECORD "last"
#define SAVING "saving"
#define NAME_LENGTH 11 /* of 001001.save */
#define HEX_LENGTH (2 * SHA256_BYTES)
#define SAVES_MOST (NPA_DAY_INTERVALS * 366 + 1)

/* A ledger, the result behind it, and behind that their SHA-256. */
struct save {
    size_t ledger_len;
    size_t result_len;
    uint8_t bytes[NPA_LEDGER_MOST + NPA_RESULT_MOST + SHA256_BYTES];
};

/* A folder and what it holds. */
struct folder {
    const char *path;
    int fd;
    int opened;       /* there is a record */
    struct save last; /* the save that it names */
    uint32_t intervals[SAVES_MOST]; /* word 3 of every save up to that one, rising */
    size_t saves;
    int unfinished;         /* there is a save that the record does not name yet */
    uint32_t unfinished_at; /* its word 3 */
};

__attribute__((noreturn, format(printf, 1, 2))) static void stop(const char *format, ...)
{
    va_list arguments;
    fflush(stdout);
    fputs("desk: ", stderr);
    va_start(arguments, format);
    vfprintf(stderr, format, arguments);
    va_end(arguments);
    fputc('\n', stderr);
    exit(2);
}

/* Says on which ground the module refused a block or file, and what else is known of it. */
__attribute__((noreturn)) static void refused(const char *path, uint32_t answer, const char *more)
{
    fflush(stdout);
    fprintf(stderr, "desk: %s: refused on ground %" PRIu32 ": %s%s. The ledger is as it was.\n", path, answer,
            npa_answer_text(answer), more);
    exit(1);
}

/* Reads at most so many bytes of a file; answers how many, or -1 if there is no such file. */
static ssize_t read_file(int folder, const char *path, uint8_t *bytes, size_t room)
{
    size_t length = 0;
    ssize_t got = 1;
    int fd = openat(folder, path, O_RDONLY);

    if (fd < 0 && errno == ENOENT) {
        return -1;
    }
    while (fd >= 0 && length < room && got != 0) {
        got = read(fd, bytes + length, room - length);
        if (got < 0) {
            break;
        }
        length += (size_t)got;
    }
    if (fd < 0 || got < 0) {
        stop("%s: %s", path, strerror(errno));
    }
    close(fd);
    return (ssize_t)length;
}

/* Writes all bytes and flushes them to disk; answers whether that went well, else errno says why not. */
static int write_flushed(int fd, const uint8_t *bytes, size_t length)
{
    size_t done = 0;
    while (done < length) {
        ssize_t written = write(fd, bytes + done, length - done);
        if (written < 0 && errno != EINTR) {
            return 0;
        }
        done += written < 0 ? 0 : (size_t)written;
    }
    return fsync(fd) == 0;
}

/*
 * Puts a file into the folder, whole or not at all: a file of another name is written, flushed and renamed, and the
 * folder is flushed, so that the name is on disk too.
 */
static void put_file(const struct folder *folder, const char *name, const uint8_t *bytes, size_t length)
{
    int fd = openat(folder->fd, SAVING, O_WRONLY | O_CREAT | O_TRUNC, 0666);
    int whole = fd >= 0 && write_flushed(fd, bytes, length);
    int error = errno;

    if (fd >= 0 && close(fd) != 0 && whole) {
        whole = 0;
        error = errno;
    }
    if (whole && (renameat(folder->fd, SAVING, folder->fd, name) != 0 || fsync(folder->fd) != 0)) {
        whole = 0;
        error = errno;
    }
    if (!whole) {
        unlinkat(folder->fd, SAVING, 0);
        stop("%s/%s cannot be saved: %s. What was saved before is as it was; settle the same file again", folder->path,
             name, strerror(error));
    }
}

static size_t save_length(const struct save *save)
{
    return save->ledger_len + save->result_len + SHA256_BYTES;
}

static uint32_t earliest(const struct save *save)
{
    return (uint32_t)npa_get64(save->bytes, NPA_LEDGER_EARLIEST);
}

/* The name of the save of this word 3. */
static const char *save_name(uint32_t interval)
{
    static char name[NAME_LENGTH + 1];
    snprintf(name, sizeof name, "%06u.save", (unsigned)(interval % 1000000));
    return name;
}

/* Word 3 from the name of a save, or -1 if it is not such a name. */
static long interval_of(const char *name)
{
    char *end;
    if (strspn(name, "0123456789") != 6 || strcmp(name + 6, ".save") != 0) {
        return -1;
    }
    return strtol(name, &end, 10);
}

/* Sets the sum behind ledger and result. */
static void seal(struct save *save)
{
    size_t length = save->ledger_len + save->result_len;
    sha256(save->bytes, length, save->bytes + length);
}

/* The SHA-256 of a whole save, in hexadecimal. */
static void save_hex(const struct save *save, char hex[HEX_LENGTH + 1])
{
    uint8_t sum[SHA256_BYTES];
    size_t i;
    sha256(save->bytes, save_length(save), sum);
    for (i = 0; i < SHA256_BYTES; i++) {
        snprintf(hex + 2 * i, 3, "%02x", sum[i]);
    }
}

/* Reads the save of this word 3 and sees that it is whole and the one that its name says. */
static void load(const struct folder *folder, uint32_t interval, struct save *save)
{
    const char *name = save_name(interval);
    uint8_t sum[SHA256_BYTES];
    ssize_t length = read_file(folder->fd, name, save->bytes, sizeof save->bytes);
    uint64_t accounts;

    if (length < 0) {
        stop("%s/%s is missing: put it back from a copy", folder->path, name);
    }
    if (length < (ssize_t)(NPA_LEDGER_HEADER_BYTES + SHA256_BYTES)) {
        stop("%s/%s is damaged (%ld bytes): put it back from a copy", folder->path, name, (long)length);
    }
    sha256(save->bytes, (size_t)length - SHA256_BYTES, sum);
    accounts = npa_get64(save->bytes, NPA_LEDGER_ACCOUNTS);
    if (memcmp(sum, save->bytes + length - SHA256_BYTES, SHA256_BYTES) != 0 || accounts > NPA_IDS_MOST ||
        NPA_LEDGER_BYTES(accounts) + SHA256_BYTES > (size_t)length) {
        stop("%s/%s is damaged (its SHA-256 is another): put it back from a copy", folder->path, name);
    }
    save->ledger_len = NPA_LEDGER_BYTES(accounts);
    save->result_len = (size_t)length - save->ledger_len - SHA256_BYTES;
    if (npa_get64(save->bytes, NPA_LEDGER_EARLIEST) != interval) {
        stop("%s/%s holds another ledger, which accepts intervals from %" PRIu64 ": put back the right one from a copy",
             folder->path, name, npa_get64(save->bytes, NPA_LEDGER_EARLIEST));
    }
}

static int by_interval(const void *a, const void *b)
{
    uint32_t left = *(const uint32_t *)a, right = *(const uint32_t *)b;
    return (left > right) - (left < right);
}

/* Finds every save; those above the last that the record names are unfinished, and a loss of power leaves only one. */
static void find_saves(struct folder *folder)
{
    DIR *entries = fdopendir(dup(folder->fd));
    struct dirent *entry;
    size_t above = 0;

    if (entries == NULL) {
        stop("%s: %s", folder->path, strerror(errno));
    }
    while ((entry = readdir(entries)) != NULL) {
        long interval = interval_of(entry->d_name);
        if (interval >= 0 && folder->opened && interval <= (long)earliest(&folder->last)) {
            if (folder->saves < SAVES_MOST) {
                folder->intervals[folder->saves++] = (uint32_t)interval;
            }
        } else if (interval >= 0) {
            above++;
            folder->unfinished_at = (uint32_t)interval;
        }
    }
    closedir(entries);
    qsort(folder->intervals, folder->saves, sizeof folder->intervals[0], by_interval);
    folder->unfinished = above == 1;
    if (above > 1) {
        stop("%s has %lu saves after the one that `%s` names: the record was put back or is missing; "
             "bring the right one from a copy",
             folder->path, (unsigned long)above, RECORD);
    }
}

/* Enters a folder alone, and loads the ledger that was saved last. */
static struct folder *enter(const char *path)
{
    struct folder *folder = calloc(1, sizeof *folder);
    char record[HEX_LENGTH + 2 + NAME_LENGTH + 2] = "", hex[HEX_LENGTH + 1];
    ssize_t length;

    if (folder == NULL) {
        stop("no memory");
    }
    folder->path = path;
    folder->fd = open(path, O_RDONLY | O_DIRECTORY);
    if (folder->fd < 0) {
        stop("folder %s: %s", path, strerror(errno));
    }
    if (flock(folder->fd, LOCK_EX | LOCK_NB) != 0) {
        stop("folder %s: %s", path, errno == EWOULDBLOCK ? "another desk is at work in it" : strerror(errno));
    }
    length = read_file(folder->fd, RECORD, (uint8_t *)record, sizeof record - 1);
    if (length >= 0) {
        char *name = record + HEX_LENGTH + 2;
        if (length != HEX_LENGTH + 2 + NAME_LENGTH + 1 || name[NAME_LENGTH] != '\n') {
            stop("%s/%s is damaged: put it back from a copy", path, RECORD);
        }
        name[NAME_LENGTH] = '\0';
        if (interval_of(name) < 0) {
            stop("%s/%s is damaged: put it back from a copy", path, RECORD);
        }
        load(folder, (uint32_t)interval_of(name), &folder->last);
        save_hex(&folder->last, hex);
        if (strncmp(record, hex, HEX_LENGTH) != 0) {
            stop("%s/%s is whole, but not the ledger that was saved last, whose SHA-256 `%s` has: "
                 "put that one back from a copy",
                 path, name, RECORD);
        }
        folder->opened = 1;
    }
    find_saves(folder);
    return folder;
}

/* Enters a folder that must hold a ledger. */
static struct folder *enter_opened(const char *path)
{
    struct folder *folder = enter(path);
    if (!folder->opened) {
        stop(folder->unfinished ? "%s has no record of a ledger: open it again with the same block, or put `last` back"
                                : "%s has no ledger: open one",
             path);
    }
    return folder;
}

/* Makes a save the last one: first the save, then the record that names it. */
static void keep(struct folder *folder, const struct save *save)
{
    char hex[HEX_LENGTH + 1], record[HEX_LENGTH + 2 + NAME_LENGTH + 2];

    put_file(folder, save_name(earliest(save)), save->bytes, save_length(save));
    save_hex(save, hex);
    snprintf(record, sizeof record, "%s  %s\n", hex, save_name(earliest(save)));
    put_file(folder, RECORD, (const uint8_t *)record, strlen(record));
    folder->last = *save;
    folder->opened = 1;
    folder->unfinished = 0;
    if (folder->saves < SAVES_MOST) {
        folder->intervals[folder->saves++] = earliest(save);
    }
}

/* Whether the save of a name has just these bytes. */
static int is_there(const struct folder *folder, const struct save *save)
{
    static struct save other;
    ssize_t length = read_file(folder->fd, save_name(earliest(save)), other.bytes, sizeof other.bytes);
    return length == (ssize_t)save_length(save) && memcmp(other.bytes, save->bytes, (size_t)length) == 0;
}

/* A save that a loss of power left without record must be what comes of the call, before any other can be made. */
static void finish(const struct folder *folder, const struct save *save, const char *path)
{
    if (folder->unfinished && (folder->unfinished_at != earliest(save) || !is_there(folder, save))) {
        const char *name = save_name(folder->unfinished_at);
        if (folder->unfinished_at == 0) {
            stop("%s is not the block that %s/%s came from, which was saved but not recorded: open with that block, "
                 "or remove the save",
                 path, folder->path, name);
        }
        stop("%s is not what %s/%s came from, which was saved but not recorded: settle that file first (interval %ld), "
             "or remove the save to leave it out",
             path, folder->path, name, (long)folder->unfinished_at - 1);
    }
}

/* Settles a file into the ledger of a save; the result and the sum come behind it. */
static uint32_t settle_into(struct save *save, const uint8_t *file, size_t length)
{
    uint8_t *result = save->bytes + save->ledger_len;
    uint32_t answer = npa_settle(save->bytes, save->ledger_len, file, length, result, NPA_RESULT_MOST);

    if (answer == NPA_OK) {
        save->result_len = NPA_RESULT_BYTES(npa_get64(result, NPA_RESULT_ROWS));
        seal(save);
    }
    return answer;
}

/*
 * Of a file that the ledger has passed: whether it is the one that was settled. Settled again into the ledger before
 * it, it must give the bytes that were saved. Otherwise says what it is and stops.
 */
static void settled_before(const struct folder *folder, const char *path, const uint8_t *file, size_t length)
{
    static struct save save;
    uint32_t interval = npa_get32(file, NPA_FILE_INTERVAL), after = interval + 1;
    const uint32_t *at = bsearch(&after, folder->intervals, folder->saves, sizeof after, by_interval);

    if (at == NULL || at == folder->intervals) {
        refused(path, NPA_REFUSED_PAST, ". This interval was never settled: the file is late (desk back)");
    }
    load(folder, at[-1], &save);
    if (settle_into(&save, file, length) != NPA_OK || !is_there(folder, &save)) {
        refused(path, NPA_REFUSED_PAST, ". This interval was settled from another file (desk back)");
    }
    printf("%s: interval %" PRIu32 " is settled already, from this file\n", path, interval);
}

static void settle_file(struct folder *folder, const char *path)
{
    static uint8_t file[NPA_FILE_MOST + 1]; /* a longer file is refused at that length */
    static struct save save;
    const uint8_t *result;
    ssize_t length = read_file(AT_FDCWD, path, file, sizeof file);
    uint32_t answer;

    if (length < 0) {
        stop("%s: %s", path, strerror(ENOENT));
    }
    save = folder->last;
    answer = settle_into(&save, file, (size_t)length);
    if (answer == NPA_REFUSED_PAST) {
        settled_before(folder, path, file, (size_t)length);
        return;
    }
    if (answer != NPA_OK) {
        refused(path, answer, "");
    }
    finish(folder, &save, path);
    keep(folder, &save);
    result = save.bytes + save.ledger_len;
    printf("%s: interval %" PRIu32 " settled, charges %" PRIu64 ", credits %" PRIu64 ", carried %" PRIu64 "\n", path,
           earliest(&save) - 1, npa_get64(result, NPA_RESULT_CHARGES), npa_get64(result, NPA_RESULT_CREDITS),
           npa_get64(result, NPA_RESULT_CARRIED));
}

static void open_year(struct folder *folder, const char *path)
{
    static uint8_t block[NPA_BLOCK_MOST + 1];
    static struct save save;
    ssize_t length = read_file(AT_FDCWD, path, block, sizeof block);
    uint32_t answer;

    if (length < 0) {
        stop("%s: %s", path, strerror(ENOENT));
    }
    if (folder->opened) {
        stop("%s has a ledger already: a year is opened once, in a folder of its own", folder->path);
    }
    answer = npa_open(block, (size_t)length, save.bytes, NPA_LEDGER_MOST);
    if (answer != NPA_OK) {
        refused(path, answer, "");
    }
    save.ledger_len = NPA_LEDGER_BYTES(npa_get64(save.bytes, NPA_LEDGER_ACCOUNTS));
    seal(&save);
    finish(folder, &save, path);
    keep(folder, &save);
    printf("%s: year opened with %" PRIu64 " accounts\n", path, npa_get64(save.bytes, NPA_LEDGER_ACCOUNTS));
}

static void show(const struct folder *folder)
{
    char hex[HEX_LENGTH + 1];
    save_hex(&folder->last, hex);
    printf("%s  %s\n", hex, save_name(earliest(&folder->last)));
    printf("%lu intervals settled, the next is %" PRIu32 " or later; carried %" PRIu64 " cents\n",
           (unsigned long)folder->saves - 1, earliest(&folder->last),
           npa_get64(folder->last.bytes, NPA_LEDGER_CARRIED));
    if (folder->unfinished) {
        printf("interval %ld was being saved: settle its file again\n", (long)folder->unfinished_at - 1);
    }
}

/* A number of an interval from the command line. */
static uint32_t interval_given(const char *text)
{
    size_t digits = strspn(text, "0123456789");
    if (digits == 0 || digits > 6 || text[digits] != '\0') {
        stop("%s is not the number of an interval", text);
    }
    return (uint32_t)strtoul(text, NULL, 10);
}

/* Writes the result of an interval to standard output. */
static void write_result(const struct folder *folder, uint32_t interval)
{
    static struct save save;
    uint32_t after = interval + 1;
    if (bsearch(&after, folder->intervals, folder->saves, sizeof after, by_interval) == NULL) {
        stop("interval %" PRIu32 " is not settled in %s", interval, folder->path);
    }
    load(folder, after, &save);
    fwrite(save.bytes + save.ledger_len, 1, save.result_len, stdout);
}

/* Copies the saves that still accept an interval to an empty folder; the record comes last. */
static void go_back(const struct folder *from, struct folder *to, uint32_t interval)
{
    static struct save save;
    size_t i;

    if (to->opened || to->unfinished) {
        stop("%s is not empty", to->path);
    }
    if (from->intervals[0] > interval) {
        stop("%s has no save from before interval %" PRIu32, from->path, interval);
    }
    if (earliest(&from->last) <= interval) {
        stop("%s still accepts interval %" PRIu32 ": settle it there", from->path, interval);
    }
    for (i = 0; i + 1 < from->saves && from->intervals[i + 1] <= interval; i++) {
        load(from, from->intervals[i], &save);
        put_file(to, save_name(earliest(&save)), save.bytes, save_length(&save));
    }
    load(from, from->intervals[i], &save);
    keep(to, &save);
    printf("%s has the year before interval %" PRIu32 ": settle that file there, and all later ones again\n", to->path,
           interval);
    for (i++; i < from->saves; i++) {
        printf("to settle again: interval %" PRIu32 "\n", from->intervals[i] - 1);
    }
}

int main(int count, char **arguments)
{
    const char *command = count > 2 ? arguments[1] : "";
    int i;

    signal(SIGXFSZ, SIG_IGN); /* a limit on file sizes is then an error of write */
    if (strcmp(command, "open") == 0 && count == 4) {
        open_year(enter(arguments[2]), arguments[3]);
    } else if (strcmp(command, "settle") == 0 && count > 3) {
        struct folder *folder = enter_opened(arguments[2]);
        for (i = 3; i < count; i++) {
            settle_file(folder, arguments[i]);
        }
    } else if (strcmp(command, "show") == 0 && count == 3) {
        show(enter_opened(arguments[2]));
    } else if (strcmp(command, "ledger") == 0 && count == 3) {
        const struct folder *folder = enter_opened(arguments[2]);
        fwrite(folder->last.bytes, 1, folder->last.ledger_len, stdout);
    } else if (strcmp(command, "result") == 0 && count == 4) {
        write_result(enter_opened(arguments[2]), interval_given(arguments[3]));
    } else if (strcmp(command, "back") == 0 && count == 5) {
        go_back(enter_opened(arguments[2]), enter(arguments[3]), interval_given(arguments[4]));
    } else {
        stop("desk open FOLDER BLOCK | settle FOLDER FILE... | show FOLDER | ledger FOLDER | result FOLDER INTERVAL | "
             "back FOLDER NEW INTERVAL");
    }
    if (fflush(stdout) != 0 || ferror(stdout)) {
        stop("standard output: %s", strerror(errno));
    }
    return 0;
}
