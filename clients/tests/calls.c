/*
 * Tests of rio.c, a part by each run: calls PART PROGRAM IMAGE DISK. The parts that the names of the functions at the end tell
 * want a fresh pair of 64 frames, 256 blocks, 64 inodes and a scratch page, or a script for `fake`. The status is 0 where all is
 * as expected, and each difference is a line.
 */
#define _POSIX_C_SOURCE 200809L

#include "../rio.h"

#include <errno.h>
#include <signal.h>
#include <stdbool.h>
#include <stdio.h>
#include <stdlib.h>
#include <string.h>

/* What a run of this program works with. */
struct setting {
    const char *program;
    const char *image;
    const char *disk;
    int differences;
};

static void same_number(struct setting *s, int line, long long got, long long wanted)
{
    if (got == wanted) return;
    printf("calls.c:%d: got %lld, wanted %lld\n", line, got, wanted);
    s->differences++;
}

static void same_bytes(struct setting *s, int line, const void *got, const void *wanted, size_t length)
{
    if (length == 0 || memcmp(got, wanted, length) == 0) return;
    printf("calls.c:%d: other bytes than wanted\n", line);
    s->differences++;
}

static void same_text(struct setting *s, int line, const char *got, const char *wanted)
{
    if (strcmp(got, wanted) == 0) return;
    printf("calls.c:%d: got \"%s\", wanted \"%s\"\n", line, got, wanted);
    s->differences++;
}

#define SAME(got, wanted) same_number(s, __LINE__, (long long)(got), (long long)(wanted))
#define SAME_BYTES(got, wanted, length) same_bytes(s, __LINE__, (got), (wanted), (length))
#define SAME_TEXT(got, wanted) same_text(s, __LINE__, (got), (wanted))

static rio *opened(struct setting *s)
{
    rio *r = rio_open(s->program, s->image, s->disk);
    if (r != NULL) return r;
    perror(s->program);
    exit(1);
}

/* Ends the program and looks at its status and last line. */
static void ends(struct setting *s, int line, rio *r, int status, const char *last_line)
{
    same_number(s, line, rio_end(r), status);
    same_text(s, line, rio_last_line(r), last_line);
    same_number(s, line, rio_end(r), status);
    rio_close(r);
}

#define ENDS(r, status, last_line) ends(s, __LINE__, (r), (status), (last_line))

static void file_calls(struct setting *s, rio *r)
{
    uint64_t n = 0;
    size_t got = 0;
    char text[100];
    struct rio_stat found = {0, RIO_FILE, 0};
    SAME(rio_mkdir(r, "/a", &n), RIO_OK);
    SAME(n, 2);
    SAME(rio_create(r, "/a/f", &n), RIO_OK);
    SAME(n, 3);
    SAME(rio_write(r, "/a/f", 0, "hello", 5, &n), RIO_OK);
    SAME(n, 5);
    SAME(rio_write(r, "/a/f", 9, NULL, 0, &n), RIO_OK);
    SAME(n, 0);
    SAME(rio_read(r, "/a/f", 0, sizeof text, text, &got), RIO_OK);
    SAME(got, 5);
    SAME_BYTES(text, "hello", 5);
    SAME(rio_truncate(r, "/a/f", 4), RIO_OK);
    SAME(rio_read(r, "/a/f", 2, 2, text, &got), RIO_OK);
    SAME(got, 2);
    SAME_BYTES(text, "ll", 2);
    SAME(rio_stat(r, "/a/f", &found), RIO_OK);
    SAME(found.inode, 3);
    SAME(found.kind, RIO_FILE);
    SAME(found.size, 4);
    SAME(rio_stat(r, "/a", &found), RIO_OK);
    SAME(found.inode, 2);
    SAME(found.kind, RIO_DIRECTORY);
    SAME(found.size, 64);
    SAME(rio_rename(r, "/a/f", "/it's\"q\\"), RIO_OK);
}

static void name_calls(struct setting *s, rio *r)
{
    char **names = NULL;
    size_t count = 9;
    SAME(rio_list(r, "/a", &names, &count), RIO_OK);
    SAME(count, 0);
    SAME(names == NULL, true);
    SAME(rio_list(r, "/", &names, &count), RIO_OK);
    SAME(count, 2);
    if (count == 2) {
        SAME_TEXT(names[0], "a");
        SAME_TEXT(names[1], "it's\"q\\");
    }
    free(names);
    SAME(rio_rmdir(r, "/a"), RIO_OK);
    SAME(rio_unlink(r, "/it's\"q\\"), RIO_OK);
    SAME(rio_sync(r), RIO_OK);
}

static void region_calls(struct setting *s, rio *r)
{
    static const unsigned char words[16] = {0x00, 0x11, 0x22, 0x33, 0x44, 0x55, 0x66, 0x77};
    unsigned char read[16];
    uint64_t n = 0;
    uint64_t *inodes = NULL;
    size_t count = 9;
    SAME(rio_region(r, "/r", 2, 1, &n), RIO_OK);
    SAME(n, 2);
    SAME(rio_txns(r, &inodes, &count), RIO_OK);
    SAME(count, 0);
    SAME(inodes == NULL, true);
    SAME(rio_begin(r, "/r"), RIO_OK);
    SAME(rio_txns(r, &inodes, &count), RIO_OK);
    SAME(count, 1);
    if (count == 1) SAME(inodes[0], 2);
    free(inodes);
    SAME(rio_range(r, "/r", 0, 16), RIO_OK);
    SAME(rio_put(r, "/r", 0, words, 8, &n), RIO_OK);
    SAME(n, 8);
    SAME(rio_get(r, "/r", 0, sizeof read, read), RIO_OK);
    SAME_BYTES(read, words, sizeof read);
    SAME(rio_alloc(r, "/r", 3, &n), RIO_OK);
    SAME(n, 0);
    SAME(rio_alloc(r, "/r", 64, &n), RIO_OK);
    SAME(n, 192);
    SAME(rio_free(r, "/r", 0), RIO_OK);
    SAME(rio_commit(r, "/r"), RIO_OK);
    SAME(rio_begin(r, "/r"), RIO_OK);
    SAME(rio_abort(r, "/r"), RIO_OK);
}

/* Each call once, on the program. */
static void requests(struct setting *s)
{
    rio *r = opened(s);
    struct rio_stat found = {0, RIO_FILE, 0};
    file_calls(s, r);
    name_calls(s, r);
    region_calls(s, r);
    SAME(rio_stat(r, "/r", &found), RIO_OK);
    SAME(found.kind, RIO_REGION);
    SAME(found.size, 8192);
    SAME(rio_flush(r, 1000), RIO_OK);
    SAME(rio_wild(r, 41984, 0xff), RIO_OK);
    SAME(rio_arm(r, RIO_MOST_NUMBER, 41984, 0xff), RIO_OK);
    ENDS(r, 0, "");
}

static void file_refusals(struct setting *s, rio *r)
{
    char text[100];
    size_t got = 7;
    uint64_t n = 7;
    SAME(rio_read(r, "/missing", 0, 1, text, &got), RIO_NOT_FOUND);
    SAME(got, 7);
    SAME(rio_create(r, "/f", NULL), RIO_OK);
    SAME(rio_create(r, "/f", &n), RIO_EXISTS);
    SAME(n, 7);
    SAME(rio_unlink(r, "/f/x"), RIO_NOT_A_DIRECTORY);
    SAME(rio_mkdir(r, "/a", NULL), RIO_OK);
    SAME(rio_write(r, "/a", 0, "x", 1, &n), RIO_IS_A_DIRECTORY);
    SAME(n, 0);
    SAME(rio_create(r, "/a/g", NULL), RIO_OK);
    SAME(rio_rmdir(r, "/a"), RIO_NOT_EMPTY);
    SAME(rio_rename(r, "/", "/x"), RIO_IS_ROOT);
    SAME(rio_truncate(r, "/f", 4292609), RIO_TOO_LARGE);
    SAME(rio_truncate(r, "/f", 4292608), RIO_NO_SPACE);
    SAME(rio_rename(r, "/a", "/a/b"), RIO_INSIDE_ITSELF);
}

static void region_refusals(struct setting *s, rio *r)
{
    char text[100];
    size_t got = 0;
    SAME(rio_region(r, "/r", 2, 1, NULL), RIO_OK);
    SAME(rio_read(r, "/r", 0, 1, text, &got), RIO_IS_A_REGION);
    SAME(rio_begin(r, "/f"), RIO_NOT_A_REGION);
    SAME(rio_put(r, "/r", 0, "01234567", 8, NULL), RIO_NO_TRANSACTION);
    SAME(rio_begin(r, "/r"), RIO_OK);
    SAME(rio_begin(r, "/r"), RIO_BUSY);
    SAME(rio_put(r, "/r", 0, "01234567", 8, NULL), RIO_NOT_COVERED);
    SAME(rio_put(r, "/r", 0, "0", 1, NULL), RIO_NOT_ALIGNED);
    SAME(rio_range(r, "/r", 8192, 8), RIO_OUT_OF_RANGE);
    SAME(rio_range(r, "/r", 0, 4080), RIO_UNDO_FULL);
    SAME(rio_alloc(r, "/r", 129, NULL), RIO_HEAP_FULL);
    SAME(rio_free(r, "/r", 64), RIO_NOT_A_BLOCK);
    SAME(rio_wild(r, 42496, 0xff), RIO_OUT_OF_RANGE);
    SAME(rio_abort(r, "/r"), RIO_OK);
}

/* Each refusal that the program can be brought to. Of 64 inodes, five are used when the loop begins. */
static void refusals(struct setting *s)
{
    rio *r = opened(s);
    char path[20];
    file_refusals(s, r);
    region_refusals(s, r);
    for (int i = 0; i < 59; i++) {
        snprintf(path, sizeof path, "/n%d", i);
        SAME(rio_create(r, path, NULL), RIO_OK);
    }
    SAME(rio_create(r, "/n59", NULL), RIO_NO_INODE);
    ENDS(r, 0, "");
}

/* Every call over a fake that answers `ok` alone where no script is left: the lines are looked at from outside. */
static void lines(struct setting *s)
{
    rio *r = opened(s);
    char text[1];
    char **names;
    uint64_t *inodes;
    size_t got;
    struct rio_stat found;
    SAME(rio_mkdir(r, "/a", NULL), RIO_WRONG_REPLY);
    SAME(rio_create(r, "/a/f", NULL), RIO_WRONG_REPLY);
    SAME(rio_region(r, "/r", 2, 1, NULL), RIO_WRONG_REPLY);
    SAME(rio_write(r, "/a/f", 9, "", 0, NULL), RIO_WRONG_REPLY);
    SAME(rio_write(r, "/a/f", 0, "\0\xff\x1a", 3, NULL), RIO_WRONG_REPLY);
    SAME(rio_read(r, "/a/f", 0, 0, text, &got), RIO_WRONG_REPLY);
    SAME(rio_truncate(r, "/a/f", 4292608), RIO_OK);
    SAME(rio_unlink(r, "/a/f"), RIO_OK);
    SAME(rio_rmdir(r, "/a"), RIO_OK);
    SAME(rio_rename(r, "/a", "/'\""), RIO_OK);
    SAME(rio_stat(r, "/a", &found), RIO_WRONG_REPLY);
    SAME(rio_list(r, "/", &names, &got), RIO_WRONG_REPLY);
    SAME(rio_sync(r), RIO_OK);
    SAME(rio_begin(r, "/r"), RIO_OK);
    SAME(rio_range(r, "/r", 8, 2000000), RIO_OK);
    SAME(rio_put(r, "/r", 8, "01234567", 8, NULL), RIO_WRONG_REPLY);
    SAME(rio_get(r, "/r", 8, 0, text), RIO_WRONG_REPLY);
    SAME(rio_alloc(r, "/r", 3, NULL), RIO_WRONG_REPLY);
    SAME(rio_free(r, "/r", 64), RIO_OK);
    SAME(rio_commit(r, "/r"), RIO_OK);
    SAME(rio_abort(r, "/r"), RIO_OK);
    SAME(rio_txns(r, &inodes, &got), RIO_WRONG_REPLY);
    SAME(rio_flush(r, 7), RIO_OK);
    SAME(rio_wild(r, 41984, 0xff), RIO_OK);
    SAME(rio_arm(r, RIO_MOST_NUMBER, 0, UINT64_MAX), RIO_OK);
    ENDS(r, 0, "");
}

/* Over a fake with a script of replies to `sync` that are refusals: 1 to 22, 30 and 31, and others that are no replies to it. */
static void answers(struct setting *s)
{
    rio *r = opened(s);
    uint64_t done = 7;
    for (int i = 1; i <= 22; i++) SAME(rio_sync(r), i);
    SAME(rio_write(r, "/f", 4088, "0123456789abcdef", 16, &done), RIO_DEVICE_FAULT);
    SAME(done, 8);
    SAME(rio_abort(r, "/r"), RIO_DEVICE_FAULT);
    SAME(rio_create(r, "/f", NULL), RIO_NO_MEMORY);
    for (int i = 0; i < 6; i++) SAME(rio_sync(r), RIO_WRONG_REPLY);
    SAME(rio_sync(r), RIO_OK);
    ENDS(r, 0, "");
}

/* Over a fake with a script of replies that bear more or other things than the request allows; nothing of them is given. */
static void wrong_answers(struct setting *s)
{
    rio *r = opened(s);
    char text[2] = "k";
    char **names = NULL;
    uint64_t *inodes = NULL;
    uint64_t n = 7;
    size_t got = 7;
    struct rio_stat found = {7, RIO_FILE, 7};
    SAME(rio_read(r, "/f", 0, 1, text, &got), RIO_WRONG_REPLY);
    SAME(text[0], 'k');
    for (int i = 0; i < 3; i++) SAME(rio_read(r, "/f", 0, 2, text, &got), RIO_WRONG_REPLY);
    SAME(rio_get(r, "/r", 0, 2, text), RIO_WRONG_REPLY);
    for (int i = 0; i < 3; i++) SAME(rio_stat(r, "/f", &found), RIO_WRONG_REPLY);
    for (int i = 0; i < 3; i++) SAME(rio_list(r, "/", &names, &got), RIO_WRONG_REPLY);
    for (int i = 0; i < 2; i++) SAME(rio_txns(r, &inodes, &got), RIO_WRONG_REPLY);
    for (int i = 0; i < 3; i++) SAME(rio_create(r, "/f", &n), RIO_WRONG_REPLY);
    SAME(n, 7);
    SAME(got, 7);
    SAME(found.inode, 7);
    SAME(names == NULL && inodes == NULL, true);
    SAME(rio_sync(r), RIO_OK);
    ENDS(r, 0, "");
}

/* Arguments that no request has are not sent: the fake ends at the first line that it gets. */
static void invalid(struct setting *s)
{
    static const char *const bad[] = {"", "f", "//", "/f/", "/.", "/..", "/a b", "/\x7f", "/\xc3\xa9", "/a\nsync"};
    rio *r = opened(s);
    char path[2000] = "/";
    for (size_t i = 0; i < sizeof bad / sizeof bad[0]; i++) SAME(rio_create(r, bad[i], NULL), RIO_INVALID);
    memset(path + 1, 'x', 57);
    SAME(rio_unlink(r, path), RIO_INVALID);
    for (int i = 0; i < 33; i++) memcpy(path + 2 * i, "/x", 3);
    SAME(rio_rename(r, "/f", path), RIO_INVALID);
    SAME(rio_mkdir(r, NULL, NULL), RIO_INVALID);
    SAME(rio_write(r, "/f", RIO_MOST_NUMBER + 1, "x", 1, NULL), RIO_INVALID);
    SAME(rio_write(r, "/f", 0, NULL, 1, NULL), RIO_INVALID);
    SAME(rio_put(r, "/r", 0, path, RIO_MOST_BYTES + 1, NULL), RIO_INVALID);
    SAME(rio_get(r, "/r", 0, RIO_MOST_BYTES + 1, path), RIO_INVALID);
    SAME(rio_region(r, "/r", 0, 1, NULL), RIO_INVALID);
    SAME(rio_region(r, "/r", 1, 0, NULL), RIO_INVALID);
    SAME(rio_alloc(r, "/r", 0, NULL), RIO_INVALID);
    SAME(rio_open_to_stop(s->program, s->image, s->disk, RIO_MOST_NUMBER + 1) == NULL, true);
    SAME(errno, EINVAL);
    path[2 * 32] = '\0';
    SAME(rio_stat(r, path, NULL), RIO_ENDED);
    ENDS(r, 6, "out of memory");
}

static unsigned char *pattern(size_t length)
{
    unsigned char *bytes = malloc(length);
    for (size_t i = 0; bytes != NULL && i < length; i++) bytes[i] = (unsigned char)(i * 7 + i / 4096);
    return bytes;
}

/* The largest file, whole, on a pair with room for it. */
static void large(struct setting *s)
{
    enum { LARGEST = 4292608 };
    rio *r = opened(s);
    unsigned char *bytes = pattern(LARGEST + 1);
    unsigned char *back = NULL;
    size_t got = 0;
    if (bytes == NULL) exit(1);
    SAME(rio_write_all(r, "/f", bytes, LARGEST), RIO_OK);
    SAME(rio_write_all(r, "/f", bytes + 1, LARGEST + 1), RIO_TOO_LARGE);
    SAME(rio_read_all(r, "/f", &back, &got), RIO_OK);
    SAME(got, LARGEST);
    if (got == LARGEST) SAME_BYTES(back, bytes, LARGEST);
    free(back);
    SAME(rio_write_all(r, "/f", "short", 5), RIO_OK);
    SAME(rio_read_all(r, "/f", &back, &got), RIO_OK);
    SAME(got, 5);
    if (got == 5) SAME_BYTES(back, "short", 5);
    free(back);
    SAME(rio_write_all(r, "/f", NULL, 0), RIO_OK);
    SAME(rio_read_all(r, "/f", &back, &got), RIO_OK);
    SAME(got, 0);
    SAME(back == NULL, true);
    SAME(rio_read_all(r, "/missing", &back, &got), RIO_NOT_FOUND);
    free(bytes);
    ENDS(r, 0, "");
}

/* Two programs at once, the second of the pair IMAGE2 and DISK2: each ends by itself, though it was started while the first ran. */
static void two(struct setting *s)
{
    char image[4096];
    char disk[4096];
    snprintf(image, sizeof image, "%s2", s->image);
    snprintf(disk, sizeof disk, "%s2", s->disk);
    rio *first = opened(s);
    rio *second = rio_open(s->program, image, disk);
    SAME(second != NULL, true);
    SAME(rio_create(first, "/first", NULL), RIO_OK);
    SAME(rio_create(second, "/second", NULL), RIO_OK);
    SAME(rio_unlink(second, "/first"), RIO_NOT_FOUND);
    ENDS(first, 0, "");
    SAME(rio_unlink(second, "/second"), RIO_OK);
    ENDS(second, 0, "");
}

/* A pair that is refused: told by the first call, which finds no program, and by the end without a call. The line is on stdin. */
static void refused(struct setting *s)
{
    char wanted[200] = "";
    int status = 0;
    if (scanf("%d %199[^\n]", &status, wanted) < 1) exit(1);
    rio *r = opened(s);
    SAME(rio_sync(r), RIO_ENDED);
    SAME(rio_sync(r), RIO_ENDED);
    SAME(rio_refusal_name(RIO_ENDED) != NULL, true);
    ENDS(r, status, wanted);
    r = opened(s);
    ENDS(r, status, wanted);
}

/* Over a fake that ends at the second request, as stdin tells. */
static void ended(struct setting *s)
{
    char wanted[200] = "";
    int status = 0;
    if (scanf("%d %199[^\n]", &status, wanted) < 1) exit(1);
    rio *r = opened(s);
    SAME(rio_sync(r), RIO_OK);
    SAME(rio_sync(r), RIO_ENDED);
    ENDS(r, status, wanted);
}

/* A program that ends without taking a line of a megabyte: no signal is left, whatever is done with it. */
static void broken_pipe(struct setting *s)
{
    unsigned char *bytes = pattern(RIO_MOST_BYTES);
    sigset_t pending;
    for (int ignored = 0; ignored < 2; ignored++) {
        if (ignored == 1) signal(SIGPIPE, SIG_IGN);
        rio *r = opened(s);
        uint64_t done = 7;
        SAME(rio_write(r, "/f", 0, bytes, RIO_MOST_BYTES, &done), RIO_ENDED);
        SAME(done, 0);
        ENDS(r, 5, "device fault at boot");
        sigpending(&pending);
        SAME(sigismember(&pending, SIGPIPE), 0);
    }
    free(bytes);
}

/* A stop by a number of steps, and one by a wild store on a protected word, which the next run finds undone. */
static void stops(struct setting *s)
{
    unsigned char read[8];
    rio *r = rio_open_to_stop(s->program, s->image, s->disk, 0);
    SAME(r != NULL, true);
    SAME(rio_sync(r), RIO_ENDED);
    ENDS(r, 10, "stopped 0");
    r = opened(s);
    SAME(rio_region(r, "/q", 1, 1, NULL), RIO_OK);
    SAME(rio_begin(r, "/q"), RIO_OK);
    SAME(rio_range(r, "/q", 0, 8), RIO_OK);
    SAME(rio_put(r, "/q", 0, "aaaaaaaa", 8, NULL), RIO_OK);
    SAME(rio_wild(r, 0, 0), RIO_ENDED);
    ENDS(r, 10, "trapped 0");
    r = opened(s);
    SAME(rio_get(r, "/q", 0, 8, read), RIO_OK);
    SAME_BYTES(read, "\0\0\0\0\0\0\0\0", 8);
    ENDS(r, 0, "");
}

/* Over a fake: a reply in many pieces, a line that waits in the pipe, and then what stdin tells of the program's end. */
static void slow(struct setting *s)
{
    char wanted[200] = "";
    int status = 0;
    size_t got = 0;
    unsigned char *bytes = pattern(RIO_MOST_BYTES);
    if (bytes == NULL || scanf("%d %199[^\n]", &status, wanted) < 1) exit(1);
    rio *r = opened(s);
    SAME(rio_write(r, "/f", 0, bytes, RIO_MOST_BYTES, NULL), RIO_OK);
    SAME(rio_read(r, "/f", 0, RIO_MOST_BYTES, bytes, &got), RIO_OK);
    SAME(got, RIO_MOST_BYTES);
    for (size_t i = 0; i < got; i++) s->differences += bytes[i] != 'a';
    SAME(rio_read(r, "/f", 0, RIO_MOST_BYTES, bytes, &got), RIO_ENDED);
    ENDS(r, status, wanted);
    free(bytes);
}

/* Queued calls on the program: what they give is there once they were waited for. */
static void queued_calls(struct setting *s, rio *r)
{
    enum { CALLS = 9 };
    int results[CALLS];
    uint64_t inode = 7;
    uint64_t done = 7;
    size_t got = 7;
    size_t count = 7;
    char text[8] = "";
    char **names = NULL;
    struct rio_stat found = {7, RIO_FILE, 7};
    rio_queue(r, &results[0]);
    SAME(rio_mkdir(r, "/a", &inode), RIO_OK);
    rio_queue(r, &results[1]);
    SAME(rio_create(r, "/a/f", NULL), RIO_OK);
    rio_queue(r, &results[2]);
    SAME(rio_write(r, "/a/f", 0, "hello", 5, &done), RIO_OK);
    rio_queue(r, &results[3]);
    SAME(rio_read(r, "/a/f", 1, sizeof text, text, &got), RIO_OK);
    rio_queue(r, &results[4]);
    SAME(rio_stat(r, "/a/f", &found), RIO_OK);
    rio_queue(r, &results[5]);
    SAME(rio_list(r, "/a", &names, &count), RIO_OK);
    rio_queue(r, &results[6]);
    SAME(rio_create(r, "/a", NULL), RIO_OK);
    rio_queue(r, &results[7]);
    SAME(rio_create(r, "a", NULL), RIO_INVALID);
    rio_queue(r, &results[8]);
    SAME(rio_rmdir(r, "/a"), RIO_OK);
    SAME(inode == 7 && done == 7 && got == 7 && names == NULL, true);
    SAME(results[6], RIO_PENDING);
    SAME(rio_wait(r, &results[6]), RIO_EXISTS);
    SAME(rio_wait_all(r), RIO_INVALID);
    for (int i = 0; i < 6; i++) SAME(results[i], RIO_OK);
    SAME(results[7], RIO_INVALID);
    SAME(results[8], RIO_NOT_EMPTY);
    SAME(inode == 2 && done == 5 && got == 4 && found.size == 5 && count == 1, true);
    SAME_BYTES(text, "ello", 4);
    if (count == 1) SAME_TEXT(names[0], "f");
    free(names);
}

static void queued(struct setting *s)
{
    rio *r = opened(s);
    int result = RIO_OK;
    uint64_t *inodes = NULL;
    size_t count = 7;
    queued_calls(s, r);
    SAME(rio_wait_all(r), RIO_OK);
    rio_queue(r, NULL);
    SAME(rio_region(r, "/r", 1, 1, NULL), RIO_OK);
    rio_queue(r, NULL);
    SAME(rio_begin(r, "/r"), RIO_OK);
    rio_queue(r, &result);
    SAME(rio_txns(r, &inodes, &count), RIO_OK);
    SAME(rio_abort(r, "/r"), RIO_OK);
    SAME(result, RIO_OK);
    SAME(count == 1 && inodes[0] == 4, true);
    free(inodes);
    rio_queue(r, &result);
    SAME(rio_write_all(r, "/f", "x", 1), RIO_INVALID);
    SAME(result, RIO_INVALID);
    rio_queue(r, NULL);
    SAME(rio_create(r, "/last", NULL), RIO_OK);
    SAME(rio_end(r), 0);
    SAME(rio_wait_all(r), RIO_INVALID);
    rio_close(r);
    r = opened(s);
    SAME(rio_unlink(r, "/last"), RIO_OK);
    ENDS(r, 0, "");
}

/* Queued writes and reads of a megabyte, so that both pipes are full: each reply is that to its request. */
static void queued_large(struct setting *s)
{
    enum { ROUNDS = 8 };
    rio *r = opened(s);
    unsigned char *bytes = pattern(RIO_MOST_BYTES + ROUNDS);
    unsigned char *back[ROUNDS];
    size_t got[ROUNDS];
    if (bytes == NULL) exit(1);
    SAME(rio_create(r, "/f", NULL), RIO_OK);
    for (int i = 0; i < ROUNDS; i++) {
        back[i] = malloc(RIO_MOST_BYTES);
        if (back[i] == NULL) exit(1);
        rio_queue(r, NULL);
        SAME(rio_write(r, "/f", 0, bytes + i, RIO_MOST_BYTES, NULL), RIO_OK);
        rio_queue(r, NULL);
        SAME(rio_read(r, "/f", 0, RIO_MOST_BYTES, back[i], &got[i]), RIO_OK);
    }
    SAME(rio_wait_all(r), RIO_OK);
    for (int i = 0; i < ROUNDS; i++) {
        SAME(got[i], RIO_MOST_BYTES);
        SAME_BYTES(back[i], bytes + i, RIO_MOST_BYTES);
        free(back[i]);
    }
    free(bytes);
    ENDS(r, 0, "");
}

/* Over a fake that answers nothing for a while: what it took is looked at from outside. */
static void queued_many(struct setting *s)
{
    enum { CALLS = 3000 };
    static int results[CALLS];
    rio *r = opened(s);
    for (int i = 0; i < CALLS; i++) {
        rio_queue(r, &results[i]);
        SAME(rio_sync(r), RIO_OK);
    }
    SAME(rio_wait_all(r), RIO_OK);
    for (int i = 0; i < CALLS; i++) SAME(results[i], RIO_OK);
    ENDS(r, 0, "");
}

/* Over a fake that answers `err 30 8` and `err 2`, and ends at the third request. */
static void queued_ended(struct setting *s)
{
    rio *r = opened(s);
    uint64_t done[2] = {7, 7};
    int results[4];
    for (int i = 0; i < 2; i++) {
        rio_queue(r, &results[i]);
        SAME(rio_write(r, "/f", 0, "0123456789abcdef", 16, &done[i]), RIO_OK);
    }
    for (int i = 2; i < 4; i++) {
        rio_queue(r, &results[i]);
        SAME(rio_sync(r), RIO_OK);
    }
    SAME(rio_wait(r, &results[3]), RIO_ENDED);
    SAME(rio_wait_all(r), RIO_DEVICE_FAULT);
    SAME(results[0], RIO_DEVICE_FAULT);
    SAME(done[0], 8);
    SAME(results[1], RIO_NOT_FOUND);
    SAME(done[1], 0);
    SAME(results[2], RIO_ENDED);
    rio_queue(r, &results[0]);
    SAME(rio_sync(r), RIO_ENDED);
    SAME(results[0], RIO_ENDED);
    ENDS(r, 8, "source fault");
}

/* No program of that name; and the names of all that a call returns. */
static void names(struct setting *s)
{
    SAME(rio_open("/nowhere/rio", s->image, s->disk) == NULL, true);
    SAME(errno, ENOENT);
    SAME_TEXT(rio_refusal_name(RIO_OK), "ok");
    SAME_TEXT(rio_refusal_name(RIO_BAD_REQUEST), "bad request");
    SAME_TEXT(rio_refusal_name(RIO_NOT_FOUND), "not found");
    SAME_TEXT(rio_refusal_name(RIO_NO_SPACE), "no space");
    SAME_TEXT(rio_refusal_name(RIO_DOOMED), "doomed");
    SAME_TEXT(rio_refusal_name(RIO_DEVICE_FAULT), "device fault");
    SAME_TEXT(rio_refusal_name(RIO_NO_MEMORY), "no memory");
    SAME_TEXT(rio_refusal_name(23), "unknown refusal");
    rio_close(NULL);
}

int main(int argc, char **argv)
{
    static const struct {
        const char *name;
        void (*run)(struct setting *);
    } parts[] = {
        {"requests", requests}, {"refusals", refusals}, {"lines", lines}, {"answers", answers},
        {"wrong_answers", wrong_answers}, {"invalid", invalid}, {"large", large}, {"two", two},
        {"refused", refused}, {"ended", ended}, {"broken_pipe", broken_pipe}, {"stops", stops}, {"slow", slow}, {"names", names},
        {"queued", queued}, {"queued_large", queued_large}, {"queued_many", queued_many}, {"queued_ended", queued_ended},
    };
    struct setting s = {argv[argc > 2 ? 2 : 0], argv[argc > 3 ? 3 : 0], argv[argc > 4 ? 4 : 0], 0};
    for (size_t i = 0; argc == 5 && i < sizeof parts / sizeof parts[0]; i++) {
        if (strcmp(argv[1], parts[i].name) == 0) {
            parts[i].run(&s);
            return s.differences == 0 ? 0 : 1;
        }
    }
    fprintf(stderr, "usage: calls PART PROGRAM IMAGE DISK\n");
    return 2;
}
