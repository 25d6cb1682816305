/* A client of rio: see rio.h. */
#define _POSIX_C_SOURCE 200809L

#include "rio.h"

#include <errno.h>
#include <fcntl.h>
#include <poll.h>
#include <signal.h>
#include <stdbool.h>
#include <stdio.h>
#include <stdlib.h>
#include <string.h>
#include <sys/types.h>
#include <sys/wait.h>
#include <unistd.h>

enum {
    MOST_NAMES = 32,
    MOST_NAME_BYTES = 56,
    NUMBER_ROOM = 21, /* 20 digits and a 0 */
    WORD_DIGITS = 16,
    /* A word, two paths or a path and two numbers, and data. */
    LINE_ROOM = 2 * RIO_MOST_BYTES + 2 * MOST_NAMES * (MOST_NAME_BYTES + 1) + 100,
    /* Lines are kept until there are so many bytes of them, and one more, or until so many replies are awaited. */
    QUEUE_ROOM = 65536,
    MOST_AWAITED = 1024,
    /* The longest reply, with its line end, is one of bytes; a last line may bear a file's name. */
    REPLY_ROOM = 2 * RIO_MOST_BYTES + 100000
};

/* What a request is answered by, behind `ok`. */
enum form { NOTHING, NUMBER, COUNT, BYTES, ALL_BYTES, STAT, NAMES, INODES };

/* Where the answer to a request goes. */
struct wanted {
    enum form form;
    uint64_t *number; /* a number, or the count of bytes done; it may be NULL */
    void *into;       /* bytes, what stands at a path, or the array of items */
    size_t most;      /* for so many bytes there is room */
    size_t *count;    /* how many bytes or items there are */
    int *result;      /* what the call comes to; it may be NULL */
    bool queued;
};

struct rio {
    pid_t program;
    int requests; /* the pipe to the program, -1 once it is closed; a write to it does not wait */
    int replies;  /* the pipe from it */
    bool over;    /* no reply comes any more */
    bool ended;
    int status;
    bool queues_next; /* the next call is queued, with this place for its result */
    int *next_result;
    int failure;         /* the first result of a queued call that is not RIO_OK, since it was told */
    uint64_t fault_done; /* the bytes done of a RIO_DEVICE_FAULT */
    bool invalid;        /* the line that is being made is no request */
    size_t sent;         /* bytes at the front of line that were sent */
    size_t line_start;   /* where the line begins that is being made */
    size_t line_length;
    size_t first_awaited;
    size_t awaited_count;
    size_t taken; /* bytes at the front of reply that belong to earlier replies */
    size_t got;   /* bytes in reply */
    const char *last_line;
    struct wanted awaited[MOST_AWAITED];
    char line[QUEUE_ROOM + LINE_ROOM];
    char reply[REPLY_ROOM + 1];
};

const char *rio_refusal_name(int refusal)
{
    static const char *const names[] = {
        "ok", "bad request", "not found", "exists", "not a directory", "is a directory", "not empty", "is a region",
        "not a region", "root", "too large", "no space", "no inode", "busy", "no transaction", "not covered", "undo full",
        "heap full", "not a block", "out of range", "not aligned", "inside itself", "doomed",
    };
    if (refusal >= 0 && (size_t)refusal < sizeof names / sizeof names[0]) return names[refusal];
    switch (refusal) {
    case RIO_DEVICE_FAULT: return "device fault";
    case RIO_NO_MEMORY: return "no memory";
    case RIO_ENDED: return "the program has ended";
    case RIO_INVALID: return "invalid argument";
    case RIO_SYSTEM: return "no memory for the answer";
    case RIO_WRONG_REPLY: return "wrong reply";
    case RIO_PENDING: return "no reply yet";
    default: return "unknown refusal";
    }
}

/* ---- Starting the program ---- */

/* The two ends of a pipe: what is written to into is read from out. */
struct pipe_ends {
    int out;
    int into;
};

static void close_end(int *end)
{
    if (*end >= 0) close(*end);
    *end = -1;
}

/* Above the standard descriptors, so that dup2 makes another one of it; and no program that is started later inherits it. */
static int lifted(int end)
{
    int higher = fcntl(end, F_DUPFD_CLOEXEC, 3);
    int error = errno;
    close(end);
    errno = error;
    return higher;
}

static bool open_pipe(struct pipe_ends *made)
{
    int ends[2];
    if (pipe(ends) != 0) return false;
    made->out = lifted(ends[0]);
    int error = errno;
    made->into = lifted(ends[1]);
    if (made->out < 0) errno = error;
    return made->out >= 0 && made->into >= 0;
}

/* Makes writes to a pipe not wait. The program's end of it waits as before. */
static bool set_unwaiting(int end)
{
    int flags = fcntl(end, F_GETFL);
    return flags >= 0 && fcntl(end, F_SETFL, flags | O_NONBLOCK) == 0;
}

/* In the child: becomes the program, or tells the parent why not. */
static _Noreturn void become(const char *const words[], int requests, int replies, int trouble)
{
    setsid();
    if (dup2(requests, STDIN_FILENO) >= 0 && dup2(replies, STDOUT_FILENO) >= 0) execvp(words[0], (char *const *)words);
    int error = errno;
    ssize_t told = write(trouble, &error, sizeof error);
    _exit(told == (ssize_t)sizeof error ? 127 : 126);
}

/* The error with which a child did not become the program, or 0 where it did: then the pipe was closed with nothing in it. */
static int exec_error(int trouble)
{
    int error = 0;
    ssize_t got;
    do got = read(trouble, &error, sizeof error);
    while (got < 0 && errno == EINTR);
    return got == (ssize_t)sizeof error ? error : 0;
}

static int awaited(pid_t program)
{
    int status;
    pid_t ended;
    do ended = waitpid(program, &status, 0);
    while (ended < 0 && errno == EINTR);
    if (ended < 0) return RIO_NO_STATUS;
    return WIFEXITED(status) ? WEXITSTATUS(status) : -WTERMSIG(status);
}

/* Starts the program of these words with the ends of two pipes, and closes those that are the program's. */
static bool start(rio *r, const char *const words[], struct pipe_ends *requests, struct pipe_ends *replies)
{
    struct pipe_ends trouble = {-1, -1};
    int error = 0;
    pid_t program = -1;
    if (open_pipe(requests) && set_unwaiting(requests->into) && open_pipe(replies) && open_pipe(&trouble)) program = fork();
    if (program < 0) error = errno;
    if (program == 0) become(words, requests->out, replies->into, trouble.into);
    close_end(&trouble.into);
    close_end(&requests->out);
    close_end(&replies->into);
    if (program > 0) {
        error = exec_error(trouble.out);
        if (error != 0) awaited(program);
    }
    close_end(&trouble.out);
    r->program = program;
    errno = error;
    return error == 0;
}

static rio *open_words(const char *const words[])
{
    struct pipe_ends requests = {-1, -1};
    struct pipe_ends replies = {-1, -1};
    rio *r = calloc(1, sizeof *r);
    if (r == NULL) return NULL;
    if (!start(r, words, &requests, &replies)) {
        int error = errno;
        close_end(&requests.into);
        close_end(&replies.out);
        free(r);
        errno = error;
        return NULL;
    }
    r->requests = requests.into;
    r->replies = replies.out;
    r->last_line = "";
    return r;
}

rio *rio_open(const char *program, const char *image, const char *disk)
{
    const char *const words[] = {program, "serve", image, disk, NULL};
    return open_words(words);
}

rio *rio_open_to_stop(const char *program, const char *image, const char *disk, uint64_t stop)
{
    char digits[NUMBER_ROOM];
    const char *const words[] = {program, "serve", image, disk, "--stop", digits, NULL};
    if (stop > RIO_MOST_NUMBER) {
        errno = EINVAL;
        return NULL;
    }
    snprintf(digits, sizeof digits, "%llu", (unsigned long long)stop);
    return open_words(words);
}

/* ---- The end ---- */

static bool begins(const char *text, size_t length, const char *word)
{
    size_t count = strlen(word);
    return length >= count && memcmp(text, word, count) == 0;
}

/* Whether a line, told without its end, is a reply. */
static bool is_reply(const char *line, size_t length)
{
    if (begins(line, length, "err ")) return length > 4 && line[4] >= '0' && line[4] <= '9';
    return (length == 2 && begins(line, length, "ok")) || begins(line, length, "ok ");
}

/* Whether bytes without a line end are the front of a reply. */
static bool is_front(const char *text, size_t length)
{
    if (length < 4) return memcmp(text, "ok ", length < 3 ? length : 3) == 0 || memcmp(text, "err", length < 3 ? length : 3) == 0;
    return begins(text, length, "ok ") || begins(text, length, "err ");
}

/* Makes what follows the replies in `reply` the last line, without its line end. */
static void take_last_line(rio *r)
{
    char *at = r->reply + r->taken;
    char *end = r->reply + r->got;
    char *line_end = memchr(at, '\n', (size_t)(end - at));
    while (line_end != NULL && is_reply(at, (size_t)(line_end - at))) {
        at = line_end + 1;
        line_end = memchr(at, '\n', (size_t)(end - at));
    }
    if (line_end == NULL && is_front(at, (size_t)(end - at))) at = end;
    if (end > at && end[-1] == '\n') end--;
    *end = '\0';
    r->last_line = at;
}

/* Reads more of what the program writes, behind what is there. False at the end, and where there is no room. */
static bool read_more(rio *r)
{
    ssize_t got;
    if (r->got == REPLY_ROOM) return false;
    do got = read(r->replies, r->reply + r->got, REPLY_ROOM - r->got);
    while (got < 0 && errno == EINTR);
    if (got <= 0) return false;
    r->got += (size_t)got;
    return true;
}

/* Gives a request that was awaited its result. */
static void settle(rio *r, const struct wanted *wanted, int result)
{
    if (wanted->queued && r->failure == RIO_OK) r->failure = result;
    if (wanted->form == COUNT && wanted->number != NULL && result != RIO_OK) {
        *wanted->number = result == RIO_DEVICE_FAULT ? r->fault_done : 0;
    }
    if (wanted->result != NULL) *wanted->result = result;
}

/* The request whose reply comes next, which is awaited no more. */
static struct wanted take_awaited(rio *r)
{
    struct wanted wanted = r->awaited[r->first_awaited];
    r->first_awaited = (r->first_awaited + 1) % MOST_AWAITED;
    r->awaited_count--;
    return wanted;
}

/* Ends the input, waits for the program, and tells those that await a reply. */
static void finish(rio *r)
{
    close_end(&r->requests);
    while (read_more(r)) continue;
    close_end(&r->replies);
    r->status = awaited(r->program);
    r->over = true;
    r->ended = true;
    take_last_line(r);
    while (r->awaited_count > 0) {
        struct wanted wanted = take_awaited(r);
        settle(r, &wanted, RIO_ENDED);
    }
}

const char *rio_last_line(const rio *r)
{
    return r->last_line;
}

void rio_close(rio *r)
{
    if (r == NULL) return;
    rio_end(r);
    free(r);
}

/* ---- Making a line, behind those that are queued ---- */

static void add_text(rio *r, const char *text, size_t length)
{
    memcpy(r->line + r->line_length, text, length);
    r->line_length += length;
}


/* The length of the name at the front, or 0 where there is none that a path may have. */
static size_t name_length(const char *text)
{
    size_t length = 0;
    while (text[length] >= 0x21 && text[length] <= 0x7e && text[length] != '/' && length <= MOST_NAME_BYTES) length++;
    if (length > MOST_NAME_BYTES) return 0;
    if ((length == 1 || length == 2) && memcmp(text, "..", length) == 0) return 0;
    return length;
}

static bool is_path(const char *path)
{
    if (path == NULL) return false;
    if (strcmp(path, "/") == 0) return true;
    for (int names = 0; names < MOST_NAMES; names++) {
        size_t length = *path == '/' ? name_length(path + 1) : 0;
        if (length == 0) return false;
        path += 1 + length;
        if (*path == '\0') return true;
    }
    return false;
}

static void add_path(rio *r, const char *path)
{
    r->invalid |= !is_path(path);
    if (r->invalid) return;
    add_text(r, " ", 1);
    add_text(r, path, strlen(path));
}

static void add_number(rio *r, uint64_t number, uint64_t least, uint64_t most)
{
    char digits[NUMBER_ROOM + 1];
    r->invalid |= number < least || number > most;
    if (r->invalid) return;
    int length = snprintf(digits, sizeof digits, " %llu", (unsigned long long)number);
    add_text(r, digits, (size_t)length);
}

/* Adds two digits for each byte, the high four bits first. */
static void add_bytes(rio *r, const void *data, size_t length)
{
    static const char digits[] = "0123456789abcdef";
    const unsigned char *bytes = data;
    r->invalid |= length > RIO_MOST_BYTES || (data == NULL && length > 0);
    if (r->invalid) return;
    add_text(r, " ", 1);
    for (size_t i = 0; i < length; i++) {
        r->line[r->line_length++] = digits[bytes[i] >> 4];
        r->line[r->line_length++] = digits[bytes[i] & 15];
    }
}

static void add_word(rio *r, uint64_t value)
{
    char digits[WORD_DIGITS + 2];
    snprintf(digits, sizeof digits, " %016llx", (unsigned long long)value);
    add_text(r, digits, WORD_DIGITS + 1);
}

/* ---- What a reply says ---- */

/* A text of which the front is taken bit by bit. */
struct text {
    const char *at;
    size_t length;
};

/* Takes a number of 1 to 20 digits off the front of a text. */
static bool take_number(struct text *text, uint64_t *number)
{
    size_t count = 0;
    uint64_t value = 0;
    while (count < text->length && text->at[count] >= '0' && text->at[count] <= '9') {
        uint64_t digit = (uint64_t)(text->at[count] - '0');
        if (value > (UINT64_MAX - digit) / 10) return false;
        value = 10 * value + digit;
        count++;
    }
    text->at += count;
    text->length -= count;
    *number = value;
    return count > 0;
}

static bool take_space(struct text *text)
{
    if (text->length == 0 || *text->at != ' ') return false;
    text->at++;
    text->length--;
    return true;
}

/* The refusal that follows "err ", with the bytes done of a fault. */
static int take_refusal(rio *r, struct text text)
{
    uint64_t number = 0;
    uint64_t done = 0;
    bool known = take_number(&text, &number) && ((number >= 1 && number <= 22) || number == 30 || number == 31);
    if (known && number == RIO_DEVICE_FAULT) known = take_space(&text) && take_number(&text, &done);
    if (!known || text.length != 0) return RIO_WRONG_REPLY;
    r->fault_done = done;
    return (int)number;
}

static int take_only_number(struct text text, uint64_t *number)
{
    uint64_t told = 0;
    if (!take_space(&text) || !take_number(&text, &told) || text.length != 0) return RIO_WRONG_REPLY;
    if (number != NULL) *number = told;
    return RIO_OK;
}

/* The value of a digit, or -1 where it is none that a reply has. */
static int digit_value(char digit)
{
    if (digit >= '0' && digit <= '9') return digit - '0';
    return digit >= 'a' && digit <= 'f' ? digit - 'a' + 10 : -1;
}

/* Bytes go where there is room for them: all that there is room for, where the form says so. */
static int take_bytes(struct text text, const struct wanted *wanted)
{
    unsigned char *into = wanted->into;
    if (!take_space(&text) || text.length % 2 != 0 || text.length / 2 > wanted->most) return RIO_WRONG_REPLY;
    size_t count = text.length / 2;
    if (wanted->form == ALL_BYTES && count != wanted->most) return RIO_WRONG_REPLY;
    for (size_t i = 0; i < count; i++) {
        int high = digit_value(text.at[2 * i]);
        int low = digit_value(text.at[2 * i + 1]);
        if (high < 0 || low < 0) return RIO_WRONG_REPLY;
        into[i] = (unsigned char)(16 * high + low);
    }
    if (wanted->count != NULL) *wanted->count = count;
    return RIO_OK;
}

/* Takes the word of a kind off the front of a text. */
static bool take_kind(struct text *text, enum rio_kind *kind)
{
    static const char *const words[] = {"dir", "file", "region"};
    for (int i = 0; i < 3; i++) {
        if (begins(text->at, text->length, words[i])) {
            text->at += strlen(words[i]);
            text->length -= strlen(words[i]);
            *kind = (enum rio_kind)(RIO_DIRECTORY + i);
            return true;
        }
    }
    return false;
}

static int take_stat(struct text text, struct rio_stat *found)
{
    struct rio_stat told = {0, RIO_FILE, 0};
    bool whole = take_space(&text) && take_number(&text, &told.inode) && take_space(&text) && take_kind(&text, &told.kind)
        && take_space(&text) && take_number(&text, &told.size);
    if (!whole || text.length != 0) return RIO_WRONG_REPLY;
    *found = told;
    return RIO_OK;
}

/* Takes the count of items off the front of a text, which leaves each of them with a space before it. */
static bool take_count(struct text *text, size_t *count)
{
    uint64_t told = 0;
    uint64_t spaces = 0;
    if (!take_space(text) || !take_number(text, &told)) return false;
    for (size_t i = 0; i < text->length; i++) spaces += text->at[i] == ' ';
    *count = (size_t)told;
    return spaces == told && (text->length == 0 || text->at[0] == ' ');
}

/* An array of the items of a text, each with a space before it, in one block with them. */
static char **split(struct text text, size_t count)
{
    char **items = malloc(count * sizeof *items + text.length + 1);
    if (items == NULL) return NULL;
    char *at = (char *)(items + count);
    char *end = at + text.length;
    memcpy(at, text.at, text.length);
    *end = '\0';
    for (size_t i = 0; i < count; i++) {
        *at = '\0';
        items[i] = at + 1;
        char *space = memchr(at + 1, ' ', (size_t)(end - at - 1));
        at = space != NULL ? space : end;
    }
    return items;
}

static int take_names(struct text text, char ***names, size_t *count)
{
    size_t told = 0;
    char **items = NULL;
    if (!take_count(&text, &told)) return RIO_WRONG_REPLY;
    if (told > 0) {
        items = split(text, told);
        if (items == NULL) return RIO_SYSTEM;
    }
    *names = items;
    *count = told;
    return RIO_OK;
}

static int take_inodes(struct text text, uint64_t **inodes, size_t *count)
{
    size_t told = 0;
    uint64_t *items = NULL;
    if (!take_count(&text, &told)) return RIO_WRONG_REPLY;
    if (told > 0) {
        items = malloc(told * sizeof *items);
        if (items == NULL) return RIO_SYSTEM;
    }
    for (size_t i = 0; i < told; i++) {
        if (!take_space(&text) || !take_number(&text, &items[i])) {
            free(items);
            return RIO_WRONG_REPLY;
        }
    }
    *inodes = items;
    *count = told;
    return RIO_OK;
}

/* Puts what a reply says where it is wanted, and returns what the call comes to. */
static int take_reply(rio *r, const struct wanted *wanted, const char *line, size_t length)
{
    if (line[0] == 'e') return take_refusal(r, (struct text){line + 4, length - 4});
    struct text text = {line + 2, length - 2};
    switch (wanted->form) {
    case NOTHING: return text.length == 0 ? RIO_OK : RIO_WRONG_REPLY;
    case NUMBER:
    case COUNT: return take_only_number(text, wanted->number);
    case BYTES:
    case ALL_BYTES: return take_bytes(text, wanted);
    case STAT: return take_stat(text, wanted->into);
    case NAMES: return take_names(text, wanted->into, wanted->count);
    case INODES: return take_inodes(text, wanted->into, wanted->count);
    }
    return RIO_WRONG_REPLY;
}

/* ---- Sending lines, and reading their replies ---- */

/* Gives each whole line among the replies to the request that awaits it, up to one that is no reply. */
static void give_lines(rio *r, size_t seen)
{
    char *end = memchr(r->reply + seen, '\n', r->got - seen);
    while (end != NULL) {
        const char *line = r->reply + r->taken;
        size_t length = (size_t)(end - line);
        r->over = r->awaited_count == 0 || !is_reply(line, length);
        if (r->over) return;
        struct wanted wanted = take_awaited(r);
        settle(r, &wanted, take_reply(r, &wanted, line, length));
        r->taken += length + 1;
        end = memchr(r->reply + r->taken, '\n', r->got - r->taken);
    }
    memmove(r->reply, r->reply + r->taken, r->got - r->taken);
    r->got -= r->taken;
    r->taken = 0;
}

/* Reads what has come, or waits for it. */
static void receive(rio *r)
{
    size_t seen = r->got;
    r->over = !read_more(r);
    if (!r->over) give_lines(r, seen);
}

/* Waits until more can be written, and reads where something has come. */
static void await_room(rio *r)
{
    struct pollfd pipes[] = {{r->requests, POLLOUT, 0}, {r->replies, POLLIN, 0}};
    if (poll(pipes, 2, -1) > 0 && pipes[1].revents != 0) receive(r);
}

/* Writes what is not sent, and reads what comes meanwhile. False where the program has ended already, so that nobody takes it. */
static bool write_lines(rio *r)
{
    while (r->sent < r->line_length && !r->over) {
        ssize_t count = write(r->requests, r->line + r->sent, r->line_length - r->sent);
        if (count > 0) r->sent += (size_t)count;
        if (count < 0 && (errno == EAGAIN || errno == EWOULDBLOCK)) await_room(r);
        else if (count < 0 && errno != EINTR) return false;
    }
    return true;
}

/* Sends all lines. Where the program has ended already, the signal of that goes no further. */
static void send_lines(rio *r)
{
    sigset_t broken_pipe;
    sigset_t old;
    sigset_t pending;
    int number;
    sigemptyset(&broken_pipe);
    sigaddset(&broken_pipe, SIGPIPE);
    sigpending(&pending);
    bool was_pending = sigismember(&pending, SIGPIPE) == 1;
    pthread_sigmask(SIG_BLOCK, &broken_pipe, &old);
    bool sent = write_lines(r);
    sigpending(&pending);
    if (!sent && !was_pending && sigismember(&pending, SIGPIPE) == 1) sigwait(&broken_pipe, &number);
    pthread_sigmask(SIG_SETMASK, &old, NULL);
    r->sent = 0;
    r->line_length = 0;
}

/* Sends all lines, and reads replies until at most so many are awaited. */
static void exchange(rio *r, size_t most)
{
    if (r->line_length > 0) send_lines(r);
    while (r->awaited_count > most && !r->over) receive(r);
    if (r->over && !r->ended) finish(r);
}

int rio_end(rio *r)
{
    if (!r->ended) exchange(r, 0);
    if (!r->ended) finish(r);
    return r->status;
}

/* Begins a line, for which room is made. */
static void begin_line(rio *r, const char *word)
{
    if (!r->ended && (r->line_length > QUEUE_ROOM || r->awaited_count == MOST_AWAITED)) exchange(r, MOST_AWAITED / 2);
    r->invalid = false;
    r->line_start = r->line_length;
    add_text(r, word, strlen(word));
}

/* Makes the request of the line that was made: now, or later where it is queued. */
static int make(rio *r, struct wanted wanted)
{
    int result = RIO_PENDING;
    wanted.queued = r->queues_next;
    wanted.result = wanted.queued ? r->next_result : &result;
    r->queues_next = false;
    if (r->invalid || r->ended) {
        int failed = r->invalid ? RIO_INVALID : RIO_ENDED;
        r->line_length = r->line_start;
        settle(r, &wanted, failed);
        return failed;
    }
    r->line[r->line_length++] = '\n';
    r->awaited[(r->first_awaited + r->awaited_count++) % MOST_AWAITED] = wanted;
    if (wanted.queued) return RIO_OK;
    exchange(r, 0);
    return result;
}

void rio_queue(rio *r, int *result)
{
    if (result != NULL) *result = RIO_PENDING;
    r->queues_next = true;
    r->next_result = result;
}

int rio_wait(rio *r, const int *result)
{
    if (r->line_length > 0) send_lines(r);
    while (*result == RIO_PENDING && r->awaited_count > 0 && !r->over) receive(r);
    if (r->over && !r->ended) finish(r);
    return *result;
}

int rio_wait_all(rio *r)
{
    if (!r->ended) exchange(r, 0);
    int failure = r->failure;
    r->failure = RIO_OK;
    return failure;
}

/* For the calls that make several requests, which cannot be queued. */
static bool is_queued(rio *r)
{
    if (!r->queues_next) return false;
    r->queues_next = false;
    settle(r, &(struct wanted){.result = r->next_result, .queued = true}, RIO_INVALID);
    return true;
}

/* For the requests that are answered `ok` alone. */
static int ask_done(rio *r)
{
    return make(r, (struct wanted){.form = NOTHING});
}

/* For those that are answered `ok` and a number, which goes to number where that is not NULL. */
static int ask_number(rio *r, uint64_t *number)
{
    return make(r, (struct wanted){.form = NUMBER, .number = number});
}

/* For those that change bytes, and tell also of a fault how many stand. */
static int ask_count(rio *r, uint64_t *done)
{
    return make(r, (struct wanted){.form = COUNT, .number = done});
}

/* ---- Files and directories ---- */

static void path_line(rio *r, const char *word, const char *path)
{
    begin_line(r, word);
    add_path(r, path);
}

/* Makes a request of a path alone that is answered `ok` alone. */
static int path_done(rio *r, const char *word, const char *path)
{
    path_line(r, word, path);
    return ask_done(r);
}

/* The line of a range of bytes at a path. */
static void bytes_line(rio *r, const char *word, const char *path, uint64_t off, uint64_t length, uint64_t most)
{
    path_line(r, word, path);
    add_number(r, off, 0, RIO_MOST_NUMBER);
    add_number(r, length, 0, most);
}

int rio_mkdir(rio *r, const char *path, uint64_t *inode)
{
    path_line(r, "mkdir", path);
    return ask_number(r, inode);
}

int rio_create(rio *r, const char *path, uint64_t *inode)
{
    path_line(r, "create", path);
    return ask_number(r, inode);
}

int rio_write(rio *r, const char *path, uint64_t off, const void *data, size_t length, uint64_t *done)
{
    path_line(r, "write", path);
    add_number(r, off, 0, RIO_MOST_NUMBER);
    add_bytes(r, data, length);
    return ask_count(r, done);
}

int rio_read(rio *r, const char *path, uint64_t off, size_t length, void *into, size_t *got)
{
    bytes_line(r, "read", path, off, length, RIO_MOST_BYTES);
    return make(r, (struct wanted){.form = BYTES, .into = into, .most = length, .count = got});
}

int rio_truncate(rio *r, const char *path, uint64_t length)
{
    path_line(r, "truncate", path);
    add_number(r, length, 0, RIO_MOST_NUMBER);
    return ask_done(r);
}

int rio_unlink(rio *r, const char *path) { return path_done(r, "unlink", path); }

int rio_rmdir(rio *r, const char *path) { return path_done(r, "rmdir", path); }

int rio_rename(rio *r, const char *path, const char *to)
{
    path_line(r, "rename", path);
    add_path(r, to);
    return ask_done(r);
}

int rio_stat(rio *r, const char *path, struct rio_stat *found)
{
    path_line(r, "stat", path);
    return make(r, (struct wanted){.form = STAT, .into = found});
}

int rio_list(rio *r, const char *path, char ***names, size_t *count)
{
    path_line(r, "list", path);
    return make(r, (struct wanted){.form = NAMES, .into = names, .count = count});
}

int rio_sync(rio *r)
{
    begin_line(r, "sync");
    return ask_done(r);
}

int rio_flush(rio *r, uint64_t count)
{
    begin_line(r, "flush");
    add_number(r, count, 0, RIO_MOST_NUMBER);
    return ask_done(r);
}

/* Reads the pieces of a file into a block of this size, or into more where it has grown. */
static int read_pieces(rio *r, const char *path, unsigned char **block, size_t *length)
{
    size_t got = RIO_MOST_BYTES;
    while (got == RIO_MOST_BYTES) {
        unsigned char *larger = realloc(*block, *length + RIO_MOST_BYTES);
        if (larger == NULL) return RIO_SYSTEM;
        *block = larger;
        int failed = rio_read(r, path, *length, RIO_MOST_BYTES, larger + *length, &got);
        if (failed != RIO_OK) return failed;
        *length += got;
    }
    return RIO_OK;
}

int rio_read_all(rio *r, const char *path, unsigned char **data, size_t *length)
{
    unsigned char *block = NULL;
    size_t got = 0;
    if (is_queued(r)) return RIO_INVALID;
    int failed = read_pieces(r, path, &block, &got);
    if (failed != RIO_OK || got == 0) {
        free(block);
        block = NULL;
    }
    if (failed != RIO_OK) return failed;
    *data = block;
    *length = got;
    return RIO_OK;
}

int rio_write_all(rio *r, const char *path, const void *data, size_t length)
{
    const unsigned char *bytes = data;
    if (is_queued(r) || (data == NULL && length > 0)) return RIO_INVALID;
    int failed = rio_create(r, path, NULL);
    if (failed == RIO_OK || failed == RIO_EXISTS) failed = rio_truncate(r, path, length);
    for (size_t off = 0; failed == RIO_OK && off < length; off += RIO_MOST_BYTES) {
        size_t left = length - off;
        failed = rio_write(r, path, off, bytes + off, left < RIO_MOST_BYTES ? left : RIO_MOST_BYTES, NULL);
    }
    return failed;
}

/* ---- Regions and transactions ---- */

int rio_region(rio *r, const char *path, uint64_t data_pages, uint64_t undo_pages, uint64_t *inode)
{
    path_line(r, "region", path);
    add_number(r, data_pages, 1, RIO_MOST_NUMBER);
    add_number(r, undo_pages, 1, RIO_MOST_NUMBER);
    return ask_number(r, inode);
}

int rio_begin(rio *r, const char *path) { return path_done(r, "begin", path); }

int rio_range(rio *r, const char *path, uint64_t off, uint64_t length)
{
    bytes_line(r, "range", path, off, length, RIO_MOST_NUMBER);
    return ask_done(r);
}

int rio_put(rio *r, const char *path, uint64_t off, const void *data, size_t length, uint64_t *done)
{
    path_line(r, "put", path);
    add_number(r, off, 0, RIO_MOST_NUMBER);
    add_bytes(r, data, length);
    return ask_count(r, done);
}

int rio_get(rio *r, const char *path, uint64_t off, size_t length, void *into)
{
    bytes_line(r, "get", path, off, length, RIO_MOST_BYTES);
    return make(r, (struct wanted){.form = ALL_BYTES, .into = into, .most = length});
}

int rio_alloc(rio *r, const char *path, uint64_t units, uint64_t *at)
{
    path_line(r, "alloc", path);
    add_number(r, units, 1, RIO_MOST_NUMBER);
    return ask_number(r, at);
}

int rio_free(rio *r, const char *path, uint64_t at)
{
    path_line(r, "free", path);
    add_number(r, at, 0, RIO_MOST_NUMBER);
    return ask_done(r);
}

int rio_commit(rio *r, const char *path) { return path_done(r, "commit", path); }

int rio_abort(rio *r, const char *path) { return path_done(r, "abort", path); }

int rio_txns(rio *r, uint64_t **inodes, size_t *count)
{
    begin_line(r, "txns");
    return make(r, (struct wanted){.form = INODES, .into = inodes, .count = count});
}

/* ---- Stores of a program gone wild ---- */

int rio_wild(rio *r, uint64_t at, uint64_t value)
{
    begin_line(r, "wild");
    add_number(r, at, 0, RIO_MOST_NUMBER);
    add_word(r, value);
    return ask_done(r);
}

int rio_arm(rio *r, uint64_t step, uint64_t at, uint64_t value)
{
    begin_line(r, "arm");
    add_number(r, step, 0, RIO_MOST_NUMBER);
    add_number(r, at, 0, RIO_MOST_NUMBER);
    add_word(r, value);
    return ask_done(r);
}
