/* Prepared stripes folded from files, in an order of writes that survives a crash at any point.
 *
 * usage: fold_files FOLDER, an empty folder. Two stripes of 4 + 1 columns, prepared to gain a parity column, are folded to one of 8 + 2. Each column
 * is a file, S.C for column C of stripe S. Of the data a fold of this kind reads a half. The new parity is written whole and synced in
 * a folder of another name; renaming that folder is the one step that counts; only then the old parity goes. So whoever comes after a
 * crash finds the folder `wide`, and the fold is done but for tidying up, or does not find it, and all the old files are there.
 *
 * To show it, the fold is broken off before each of its writes in turn, taken up again, and two lost columns are mended.
 * Exit: 0 all went as told; 1 not so.
 */
#define _POSIX_C_SOURCE 200809L
#include "shelf.h"

#include <fcntl.h>
#include <stdio.h>
#include <stdlib.h>
#include <string.h>
#include <sys/stat.h>
#include <sys/wait.h>
#include <unistd.h>

enum { K = 4, R = 1, T = 2, L = 512, STRIPES = 2, F = 2, WIDE_K = STRIPES * K };

static int writes_left = -1; /* a crash comes when it reaches 0; -1: never */

static void expect(int holds, const char *what)
{
    if (!holds) {
        printf("NOT SO: %s\n", what);
        exit(1);
    }
}

/* Before each write: the crash, where it is due. */
static void may_crash(void)
{
    if (writes_left == 0)
        _exit(7);
    writes_left -= writes_left > 0;
}

static const char *old_name(int stripe, int column)
{
    static char name[32];
    snprintf(name, sizeof name, "%d.%d", stripe, column);
    return name;
}

static const char *new_name(const char *folder, int column)
{
    static char name[32];
    snprintf(name, sizeof name, "%s/p%d", folder, column);
    return name;
}

static void sync_folder(const char *folder)
{
    int fd = open(folder, O_RDONLY);
    expect(fd >= 0 && fsync(fd) == 0 && close(fd) == 0, "a folder is synced");
}

/* The bytes are on the disk when this returns. */
static void write_file(const char *name, const uint8_t *bytes, size_t length)
{
    may_crash();
    int fd = open(name, O_WRONLY | O_CREAT | O_TRUNC, 0644);
    expect(fd >= 0 && write(fd, bytes, length) == (ssize_t)length && fsync(fd) == 0 && close(fd) == 0, "a file is written");
}

static void read_file(const char *name, uint8_t *bytes, size_t first, size_t length)
{
    int fd = open(name, O_RDONLY);
    expect(fd >= 0 && pread(fd, bytes, length, (off_t)first) == (ssize_t)length && close(fd) == 0, "a file is read");
}

static uint8_t written(int stripe, int column, int place) { return (uint8_t)((stripe * K + column + 3) * (place + 7) * 151 >> 3); }

static void write_month(void)
{
    static uint8_t stripe[(K + R) * L];
    for (int s = 0; s < STRIPES; s++) {
        for (int i = 0; i < K * L; i++)
            stripe[i] = written(s, i / L, i % L);
        expect(shelf_encode(K, R, T, L, stripe, K * L, stripe + K * L, R * L) == SHELF_OK, "a stripe is encoded");
        for (int c = 0; c < K + R; c++)
            write_file(old_name(s, c), stripe + c * L, L);
    }
    sync_folder(".");
}

/* The fold, or what a crash left of it to do. */
static void fold(void)
{
    static struct shelf_span spans[SHELF_MAX_SPANS];
    static uint8_t bytes[WIDE_K * L], parity[F * L];
    size_t at = 0;
    if (access("wide", F_OK) != 0) {
        expect(shelf_plan_spans(K, R, T, L, STRIPES, F, spans, SHELF_MAX_SPANS) == SHELF_OK, "the fold has a plan");
        for (uint64_t i = 0; i < shelf_plan_columns_read(K, R, T, L, STRIPES, F); i++) {
            expect(at + spans[i].length <= sizeof bytes, "what is read has room");
            read_file(old_name((int)spans[i].stripe, (int)spans[i].position), bytes + at, spans[i].first, spans[i].length);
            at += spans[i].length;
        }
        expect(shelf_fold(K, R, T, L, STRIPES, F, bytes, at, parity, F * L) == SHELF_OK, "the fold is done");
        may_crash();
        expect(access("wide.new", F_OK) == 0 || mkdir("wide.new", 0755) == 0, "the new folder is made");
        for (int j = 0; j < F; j++)
            write_file(new_name("wide.new", j), parity + j * L, L);
        sync_folder("wide.new");
        may_crash();
        expect(rename("wide.new", "wide") == 0, "the new parity counts");
    }
    sync_folder("."); /* the new name is on the disk before the old parity goes, also if a crash came right after the renaming */
    for (int s = 0; s < STRIPES; s++)
        for (int j = 0; j < R; j++) {
            may_crash();
            expect(unlink(old_name(s, K + j)) == 0 || access(old_name(s, K + j), F_OK) != 0, "the old parity goes");
        }
}

/* Columns 1 and 6 of the wide stripe are lost, and mended. */
static void lose_and_mend(void)
{
    static uint8_t wide[(WIDE_K + F) * L];
    const uint8_t lost[4] = {1, 0, 6, 0};
    uint32_t column, place;
    for (int c = 0; c < WIDE_K; c++)
        read_file(old_name(c / K, c % K), wide + c * L, 0, L);
    for (int j = 0; j < F; j++)
        read_file(new_name("wide", j), wide + (WIDE_K + j) * L, 0, L);
    expect(shelf_check(WIDE_K, F, 0, L, wide, WIDE_K * L, wide + WIDE_K * L, F * L, &column, &place) == SHELF_OK, "the wide stripe is a codeword");
    memset(wide + 1 * L, 0, L);
    memset(wide + 6 * L, 0, L);
    expect(shelf_mend(WIDE_K, F, 0, L, wide, sizeof wide, lost, sizeof lost) == SHELF_OK, "two lost columns are mended");
    for (int i = 0; i < WIDE_K * L; i++)
        expect(wide[i] == written(i / L / K, i / L % K, i % L), "every byte is as written");
}

static void tidy_up(void)
{
    for (int j = 0; j < F; j++) {
        unlink(new_name("wide", j));
        unlink(new_name("wide.new", j));
    }
    rmdir("wide");
    rmdir("wide.new");
    for (int s = 0; s < STRIPES; s++)
        for (int c = 0; c < K + R; c++)
            unlink(old_name(s, c));
}

int main(int argc, char **argv)
{
    int crash = 0, status = 0;
    expect(argc == 2 && chdir(argv[1]) == 0, "usage: fold_files FOLDER");
    tidy_up();
    printf("%u columns and %u bytes of %u are read\n", (unsigned)shelf_plan_columns_read(K, R, T, L, STRIPES, F),
           (unsigned)shelf_plan_bytes_read(K, R, T, L, STRIPES, F), STRIPES * (K + R) * L);
    do {
        write_month();
        fflush(stdout);
        pid_t child = fork();
        expect(child >= 0, "a process for the fold");
        if (child == 0) {
            writes_left = crash;
            fold();
            _exit(0);
        }
        expect(waitpid(child, &status, 0) == child && WIFEXITED(status) && (WEXITSTATUS(status) == 7 || WEXITSTATUS(status) == 0), "the fold ended");
        fold();
        lose_and_mend();
        if (WEXITSTATUS(status) == 7)
            printf("crash before write %d: the fold taken up again, two columns lost and mended, every byte as written\n", crash);
        tidy_up();
        crash++;
    } while (WEXITSTATUS(status) == 7);
    printf("no crash: the same\n");
    return 0;
}
