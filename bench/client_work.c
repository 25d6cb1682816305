/*
 * The work of bench/compare by the client rio.c, for bench/clients, which compiles it with rio.c and makes the pair first.
 *
 *     client_work PROGRAM IMAGE DISK WORK HOW SECONDS
 *
 * WORK is write, mail or transfer. HOW is request (each call waits for its reply) or batch (calls are queued, and 1,000
 * operations are waited for at once). It prints how many operations a second it did. The status is 1 where a call was refused.
 */
#include <inttypes.h>
#include <stdio.h>
#include <stdlib.h>
#include <string.h>
#include <time.h>

#include "rio.h"

enum { SLOT_BYTES = 64, SLOTS = 64, MAIL_BYTES = 2048, MAILS = 50, ACCOUNTS = 512, BALANCE = 1000, AMOUNT = 10, BATCH = 1000 };

/* A client, whether its calls are queued, and what its bank holds. */
struct client {
    rio *run;
    int is_queued;
    uint64_t balances[ACCOUNTS];
};

typedef int work(struct client *client, uint64_t n);

/* Has the next call queued, where this client's are. */
static rio *next(struct client *client) {
    if (client->is_queued)
        rio_queue(client->run, NULL);
    return client->run;
}

static void fill(unsigned char *data, size_t length, uint64_t n) {
    for (size_t i = 0; i < length; i++)
        data[i] = (unsigned char)(n + i);
}

static int write_slot(struct client *client, uint64_t n) {
    unsigned char data[SLOT_BYTES];
    fill(data, sizeof data, n);
    return rio_write(next(client), "/slots", SLOT_BYTES * (n % SLOTS), data, sizeof data, NULL);
}

static int drop_mail(struct client *client, uint64_t n) {
    unsigned char data[MAIL_BYTES];
    char name[40];
    fill(data, sizeof data, n);
    snprintf(name, sizeof name, "/mails/%" PRIu64, n % MAILS);
    int failed = rio_create(next(client), "/mails/new", NULL);
    if (failed == RIO_OK)
        failed = rio_write(next(client), "/mails/new", 0, data, sizeof data, NULL);
    if (failed == RIO_OK)
        failed = rio_rename(next(client), "/mails/new", name);
    return failed;
}

/* Puts a balance as 8 bytes, the lowest first. */
static int put_balance(struct client *client, uint64_t account) {
    unsigned char word[8];
    for (int i = 0; i < 8; i++)
        word[i] = (unsigned char)(client->balances[account] >> 8 * i);
    return rio_put(next(client), "/bank", 8 * account, word, sizeof word, NULL);
}

static int transfer(struct client *client, uint64_t n) {
    uint64_t from = n % ACCOUNTS, to = (7 * n + 3) % ACCOUNTS;
    client->balances[from] -= AMOUNT;
    client->balances[to] += AMOUNT;
    int failed = rio_begin(next(client), "/bank");
    if (failed == RIO_OK)
        failed = rio_range(next(client), "/bank", 8 * from, 8);
    if (failed == RIO_OK)
        failed = rio_range(next(client), "/bank", 8 * to, 8);
    if (failed == RIO_OK)
        failed = put_balance(client, from);
    if (failed == RIO_OK)
        failed = put_balance(client, to);
    if (failed == RIO_OK)
        failed = rio_commit(next(client), "/bank");
    return failed;
}

/* The work of a name, or NULL. */
static work *work_of(const char *name) {
    static const struct { const char *name; work *one; } works[] = {{"write", write_slot}, {"mail", drop_mail}, {"transfer", transfer}};
    for (size_t i = 0; i < sizeof works / sizeof works[0]; i++)
        if (strcmp(name, works[i].name) == 0)
            return works[i].one;
    return NULL;
}

static double now(void) {
    struct timespec time;
    clock_gettime(CLOCK_MONOTONIC, &time);
    return (double)time.tv_sec + 1e-9 * (double)time.tv_nsec;
}

/* Does the work for so many seconds. Gives the operations a second, or below 0 what a call came to that failed. */
static double rate(struct client *client, work *one, double seconds) {
    uint64_t done = 0, together = client->is_queued ? BATCH : 1;
    double began = now(), took = 0;
    while (took < seconds) {
        int failed = RIO_OK;
        for (uint64_t last = done + together; done < last && failed == RIO_OK; done++)
            failed = one(client, done);
        if (failed == RIO_OK && client->is_queued)
            failed = rio_wait_all(client->run);
        if (failed != RIO_OK) {
            fprintf(stderr, "client_work: %s\n", rio_refusal_name(failed));
            return -1;
        }
        took = now() - began;
    }
    return (double)done / took;
}

int main(int count, char **words) {
    work *one = count == 7 ? work_of(words[4]) : NULL;
    if (!one) {
        fprintf(stderr, "usage: client_work PROGRAM IMAGE DISK write|mail|transfer request|batch SECONDS\n");
        return 2;
    }
    struct client client = {rio_open(words[1], words[2], words[3]), strcmp(words[5], "batch") == 0, {0}};
    if (!client.run) {
        perror("client_work");
        return 1;
    }
    for (size_t i = 0; i < ACCOUNTS; i++)
        client.balances[i] = BALANCE;
    double figure = rate(&client, one, atof(words[6]));
    int status = rio_end(client.run);
    if (status != 0)
        fprintf(stderr, "client_work: the program ended with status %d: %s\n", status, rio_last_line(client.run));
    rio_close(client.run);
    if (figure < 0 || status != 0)
        return 1;
    printf("%.1f\n", figure);
    return 0;
}
