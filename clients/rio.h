/*
 * A client of rio in C11 over POSIX: this file and rio.c, and no library but the system's.
 *
 * rio_open starts the program on two pipes. Each call sends one request and waits for its reply:
 *
 *     rio *r = rio_open("./rio", "image", "disk");
 *     unsigned char text[100];
 *     size_t got = 0;
 *     int failed = rio_create(r, "/notes", NULL);
 *     if (failed == RIO_OK) failed = rio_write(r, "/notes", 0, "hello world", 11, NULL);
 *     if (failed == RIO_OK) failed = rio_read(r, "/notes", 0, sizeof text, text, &got);
 *     if (failed != RIO_OK) fprintf(stderr, "%s\n", rio_refusal_name(failed));
 *     printf("%.*s\n", (int)got, (const char *)text);
 *     if (rio_end(r) != 0) fprintf(stderr, "%s\n", rio_last_line(r));
 *     rio_close(r);
 *
 * It is compiled by: cc -std=c11 program.c rio.c
 *
 * What a call changed is kept once it has returned RIO_OK, but for the changes of an open transaction, which count once it
 * is committed. The end of the run undoes the transactions that are open then.
 *
 * Results. Each call returns RIO_OK, or the number of a refusal, which is above 0, or a failure, which is below 0. The results
 * that it gives by pointers are written at RIO_OK alone, where nothing else is said. A refused request changed nothing, except
 * that of RIO_DEVICE_FAULT the first bytes of a write or put stand, and that an alloc, free or abort may have left a
 * transaction that can only be aborted. docs/SEMANTICS.md tells which request is refused when.
 *
 * Values. A path is a string: "/", or 1 to 32 names with a '/' before each; a name has 1 to 56 bytes from 0x21 to 0x7e without
 * '/', and is neither "." nor "..". Data are a pointer and a length in bytes; the pointer may be NULL where the length is 0.
 * Offsets, lengths and counts are from 0 to RIO_MOST_NUMBER. A call with a value outside of these is RIO_INVALID.
 *
 * Several at once. rio_queue makes the next call one that is sent later, together with others, which is many times faster:
 *
 *     int results[2] = {RIO_PENDING, RIO_PENDING};
 *     rio_queue(r, &results[0]);
 *     rio_create(r, "/a", NULL);
 *     rio_queue(r, &results[1]);
 *     rio_create(r, "/b", NULL);
 *     if (rio_wait_all(r) != RIO_OK) fprintf(stderr, "%s, %s\n", rio_refusal_name(results[0]), rio_refusal_name(results[1]));
 *
 * Requests are made in the order of their calls, also where some are queued and some are not. What is under way is bounded: at most
 * 1,024 requests wait for their replies, and a call that comes when there are more waits first. Replies are read while requests
 * are sent, so that the two never wait for each other.
 *
 * Memory. What a caller passes stays the caller's, and is not kept. What a call has allocated for the caller is one block,
 * which the caller gives to free. A rio has some 4 MB of its own, and makes no other allocation while a request is on its way.
 *
 * The end. rio_end tells the program's status, and docs/FORMATS.md which there are. Where a signal killed the program, the pair
 * stands for all that was answered, and of the request on its way for nothing, all, or of a write a front of it. So it does
 * after a status 7 because the image could not be saved, unless the standard error tells that IMAGE could not be kept in step
 * with memory. With RIO_MEMORY=plain nothing is promised of the pair after either.
 *
 * Signals and threads. The program runs in a session of its own, so Ctrl-C reaches the client alone. No call leaves a
 * SIGPIPE behind, and calls that a signal interrupts go on. Where the client ends or is killed, the program meets the end of
 * its input and saves the image; the request on its way then is done or not, or of a write a front of it. A rio is for one
 * thread at a time.
 */
#ifndef RIO_H
#define RIO_H

#include <stddef.h>
#include <stdint.h>

#ifdef __cplusplus
extern "C" {
#endif

/* The most data of one rio_write or rio_put, and the most that one rio_read or rio_get asks for, in bytes. */
#define RIO_MOST_BYTES 1048576
/* The largest number that a request can have. */
#define RIO_MOST_NUMBER UINT64_C(999999999999999999)
/* The status of a program of which the system does not tell one, as where SIGCHLD is ignored. */
#define RIO_NO_STATUS 256

/* A program that serves a pair of files. */
typedef struct rio rio;

/* What a call returns. */
enum rio_refusal {
    RIO_OK = 0,
    RIO_BAD_REQUEST = 1,     /* the line is no request */
    RIO_NOT_FOUND = 2,       /* there is no such name */
    RIO_EXISTS = 3,          /* the name is there already */
    RIO_NOT_A_DIRECTORY = 4, /* what should be a directory is none */
    RIO_IS_A_DIRECTORY = 5,  /* what should be a file is a directory */
    RIO_NOT_EMPTY = 6,       /* the directory has names */
    RIO_IS_A_REGION = 7,     /* what should be a file is a region */
    RIO_NOT_A_REGION = 8,    /* what should be a region is none */
    RIO_IS_ROOT = 9,         /* the root directory cannot go, move, or be moved to */
    RIO_TOO_LARGE = 10,      /* no file can be so large */
    RIO_NO_SPACE = 11,       /* no block is free for it */
    RIO_NO_INODE = 12,       /* no inode is free */
    RIO_BUSY = 13,           /* the region has an open transaction */
    RIO_NO_TRANSACTION = 14, /* the region has no open transaction */
    RIO_NOT_COVERED = 15,    /* some of these bytes are in no range of the transaction */
    RIO_UNDO_FULL = 16,      /* the undo pages have no room for it */
    RIO_HEAP_FULL = 17,      /* no gap of the heap is large enough */
    RIO_NOT_A_BLOCK = 18,    /* no block of the heap starts there */
    RIO_OUT_OF_RANGE = 19,   /* the region's data, or memory, ends before */
    RIO_NOT_ALIGNED = 20,    /* the bytes are not whole words of 8 */
    RIO_INSIDE_ITSELF = 21,  /* a directory cannot move below itself */
    RIO_DOOMED = 22,         /* after a device fault the transaction may only be aborted */
    RIO_DEVICE_FAULT = 30,   /* the disk failed in this request */
    RIO_NO_MEMORY = 31,      /* the program had no memory for it; nothing changed */

    /* The program has ended: see rio_end and rio_last_line. The request is done or not, or of a write a front of it. */
    RIO_ENDED = -1,
    RIO_INVALID = -2,    /* an argument is outside of what its call allows; nothing was sent */
    RIO_SYSTEM = -3,     /* the request is done, and there was no memory for what it answers: see errno */
    RIO_WRONG_REPLY = -4, /* the reply is none that the request can have */
    RIO_PENDING = -5      /* the call is queued, and its reply was not read yet */
};

/* What stands at a path. */
enum rio_kind { RIO_DIRECTORY = 1, RIO_FILE = 2, RIO_REGION = 3 };

/* Of a region the size is that of its data, in bytes. */
struct rio_stat {
    uint64_t inode;
    enum rio_kind kind;
    uint64_t size;
};

/* The name of what a call returned, such as "not found". It is never NULL. */
const char *rio_refusal_name(int refusal);

/* ---- The program ---- */

/*
 * Starts `program serve image disk`. A program without a slash is looked for along PATH. Returns NULL with errno set where there
 * is no memory or no pipe, or the program cannot be started. It does not wait for the program to begin: a pair that it refuses
 * is told by the first call, by RIO_ENDED, or by rio_end.
 */
rio *rio_open(const char *program, const char *image, const char *disk);

/* The same with `--stop stop`: the machine stops after so many steps, as in a crash. errno is EINVAL above RIO_MOST_NUMBER. */
rio *rio_open_to_stop(const char *program, const char *image, const char *disk, uint64_t stop);

/*
 * Ends the input, waits until the program has saved the image and ended, and returns its status: 0 to 255, minus the number of
 * the signal that killed it, or RIO_NO_STATUS. It may be called again, and after RIO_ENDED.
 */
int rio_end(rio *r);

/* The last line of an ended program that is no reply, such as "stopped 3500"; "" where there is none. It belongs to r. */
const char *rio_last_line(const rio *r);

/* Ends the program, as rio_end, where it has not ended, and frees r, which may be NULL. */
void rio_close(rio *r);

/* ---- Several requests at once ---- */

/*
 * Makes the next call that makes a request a queued one. That returns RIO_OK once the request is queued, or RIO_INVALID or RIO_ENDED
 * where it is not. What it comes to is put in *result, which is RIO_PENDING until the reply is read; result may be NULL. What
 * the call gives by pointers is put there at that time too, so all of them have to stay until then. The data that it is passed
 * are copied. rio_read_all and rio_write_all make several requests, and are RIO_INVALID as queued calls.
 *
 * A request is sent before the replies to those in front of it are known: a commit keeps what its transaction changed until then,
 * also where a put before it was refused.
 */
void rio_queue(rio *r, int *result);

/* Sends what is queued, reads replies until that is there whose call was queued with this result, and returns it. */
int rio_wait(rio *r, const int *result);

/*
 * Sends what is queued and reads all replies. Returns RIO_OK where each queued call since the last rio_wait_all came to that, else
 * what the first of the others came to. A call that is not queued, and rio_end, wait in the same way, and leave this to be told.
 */
int rio_wait_all(rio *r);

/* ---- Files and directories ---- */

/* Makes an empty directory or file, and gives its inode where inode is not NULL. */
int rio_mkdir(rio *r, const char *path, uint64_t *inode);
int rio_create(rio *r, const char *path, uint64_t *inode);

/*
 * Writes length bytes, at most RIO_MOST_BYTES, from byte off of a file on. A gap before them is filled with zeros. Where done is
 * not NULL it is given how many bytes stand: all of them at RIO_OK, the first ones at RIO_DEVICE_FAULT, else 0.
 */
int rio_write(rio *r, const char *path, uint64_t off, const void *data, size_t length, uint64_t *done);

/* Reads up to length bytes, at most RIO_MOST_BYTES, of a file from byte off on. into has room for length, got is not NULL. */
int rio_read(rio *r, const char *path, uint64_t off, size_t length, void *into, size_t *got);

/* Gives a file this length in bytes. What it grows by is zeros. */
int rio_truncate(rio *r, const char *path, uint64_t length);

/* Removes a file or a region. */
int rio_unlink(rio *r, const char *path);

/* Removes an empty directory. */
int rio_rmdir(rio *r, const char *path);

/* Moves a name, in one change. A file or region that has the name to is replaced. */
int rio_rename(rio *r, const char *path, const char *to);

/* Tells inode, kind and size of what stands at a path. */
int rio_stat(rio *r, const char *path, struct rio_stat *found);

/* Gives the names in a directory, in byte order: an array of count strings, in one block with them. *names is NULL for none. */
int rio_list(rio *r, const char *path, char ***names, size_t *count);

/* Does nothing: what is answered is kept. Its reply shows that the program serves. */
int rio_sync(rio *r);

/* Writes the first count changed pages of memory to the disk. */
int rio_flush(rio *r, uint64_t count);

/* Gives all bytes of a file, in one block. *data is NULL for none. RIO_SYSTEM: there was no memory for them. */
int rio_read_all(rio *r, const char *path, unsigned char **data, size_t *length);

/*
 * Makes the data all that the file has, and the file where it is not there. Its room is taken first, so that where that is
 * refused the old bytes stand. Then come pieces of RIO_MOST_BYTES: a stop between two leaves the first of them. To replace a file
 * in one change, write it under another name and rename that.
 */
int rio_write_all(rio *r, const char *path, const void *data, size_t length);

/* ---- Regions and transactions ---- */

/* Makes a region of data pages of 4,096 zero bytes and of undo pages, both at least 1; gives its inode where that is not NULL. */
int rio_region(rio *r, const char *path, uint64_t data_pages, uint64_t undo_pages, uint64_t *inode);

/* Opens a transaction on a region. */
int rio_begin(rio *r, const char *path);

/* Says that the transaction may change these bytes, which are whole words of 8. */
int rio_range(rio *r, const char *path, uint64_t off, uint64_t length);

/* Changes bytes within the ranges of the transaction, whole words of 8. length and done are as for rio_write. */
int rio_put(rio *r, const char *path, uint64_t off, const void *data, size_t length, uint64_t *done);

/* Reads length bytes, at most RIO_MOST_BYTES, of a region as they are now into room for so many. It needs no transaction. */
int rio_get(rio *r, const char *path, uint64_t off, size_t length, void *into);

/* Takes a block of units of 64 bytes, at least 1, of the region's heap, and gives the byte at which it starts. */
int rio_alloc(rio *r, const char *path, uint64_t units, uint64_t *at);

/* Gives back the block that starts at byte at. */
int rio_free(rio *r, const char *path, uint64_t at);

/* Ends the transaction, and keeps what it changed. */
int rio_commit(rio *r, const char *path);

/* Ends the transaction, and puts back what was before it. After RIO_DEVICE_FAULT it may be tried again. */
int rio_abort(rio *r, const char *path);

/* Gives the inodes of the regions with an open transaction, in the order of rio_begin: an array. *inodes is NULL for none. */
int rio_txns(rio *r, uint64_t **inodes, size_t *count);

/* ---- Stores of a program gone wild ---- */

/* Stores the value in word at of memory, past all protection. On a protected word the machine stops: RIO_ENDED. */
int rio_wild(rio *r, uint64_t at, uint64_t value);

/* Has such a store made after step further steps. It takes the place of an earlier one that was not made yet. */
int rio_arm(rio *r, uint64_t step, uint64_t at, uint64_t value);

#ifdef __cplusplus
}
#endif

#endif
