#ifndef _GNU_SOURCE
#define _GNU_SOURCE /* for getrandom, whatever standard the program is compiled by */
#endif
#include "store_client.h"

#include <errno.h>
#include <limits.h>
#include <poll.h>
#include <stdbool.h>
#include <stdlib.h>
#include <string.h>
#include <sys/random.h>
#include <sys/socket.h>
#include <sys/uio.h>
#include <sys/un.h>
#include <time.h>
#include <unistd.h>

enum command {
    HELLO = 0x01,
    CREATE = 0x02,
    WRITE = 0x03,
    SEAL = 0x04,
    GET = 0x05,
    READ = 0x06,
    RELEASE = 0x07,
    UNPIN = 0x08,
    BORROW = 0x09,
    GIVE_UP = 0x0a,
    DELETE = 0x0b,
    END_TASK = 0x0c,
    GRANT = 0x0d,
    WITHDRAW = 0x0e,
    PEEK = 0x0f,
    LIST = 0x10,
    USAGE = 0x11,
    LEAVE = 0x12,
    GET_WAIT = 0x13,
    CREATE_WAIT = 0x14
};

enum reply { OK = 0x80, PLACED = 0x81, GOT = 0x82, BYTES = 0x83, LISTED = 0x84, USED = 0x85, REFUSED = 0x8f };

enum {
    HEAD_BYTES = 5,
    LONGEST_FIELDS = STORE_ID_BYTES + STORE_TASK_BYTES,
    LENGTH_BYTES = 4,
    PLACED_BYTES = 8,
    USAGE_BYTES = 48,
    LONGEST_REPLY = 262144, /* after its length */
    OWN_ITEM = STORE_ID_BYTES + 6,
    GRANTED_ITEM = STORE_ID_BYTES + 5,
    /* So many bytes go in one trip. A longer object isn't sent with its Create: it would be sent in vain too often. */
    ONE_TRIP = 1 << 20,
    MOST_PIECES = ONE_TRIP / STORE_MOST_BYTES,
    /* in one trip: the pieces, one command before them, and two after them */
    MOST_REQUESTS = MOST_PIECES + 3,
    /* bytes that are read before it is known what they are */
    READ_AHEAD = 256
};

/* Microseconds. A pause between two tries is a part of the time already waited: what comes soon is seen soon, and a long wait costs
 * little. */
enum {
    FIRST_PAUSE = 1000,
    LONGEST_PAUSE = 50000,
    PAUSES_IN_WAITED = 32,
    QUEUE_PAUSE = 10000,
    /* after which a transfer is asked for again, at first and at most */
    FIRST_REMINDER = 100000,
    LAST_REMINDER = 2000000,
    /* nothing is asked later than so long before a call's end: a server that answers at once isn't silent */
    LAST_LOOK = 20000
};

static const int64_t NEVER = INT64_MAX;

/* A command that is sent, and what is known of its reply. */
struct request {
    enum command kind;
    /* the frame: its head and its fields, and the bytes after them if it has some */
    unsigned char frame[HEAD_BYTES + LONGEST_FIELDS];
    size_t length;
    const void *bytes;
    size_t count;
    /* the reply that is due if it isn't refused, how long its body may be, and where that goes: without a place to `reply` */
    enum reply due;
    size_t least, most;
    unsigned char *body;
    unsigned char reply[USAGE_BYTES];
    /* once it is answered: how long the body is, and the refusal or STORE_OK */
    size_t came;
    int result;
};

/* Commands that go in one trip. */
struct burst {
    struct request requests[MOST_REQUESTS];
    size_t count;
};

/* What has come from a server. */
struct replies {
    const struct store *store;
    size_t start, end;
    unsigned char ahead[READ_AHEAD];
};

const char *store_result_name(int result)
{
    static const char *const names[] = {
        "Ok", "NotAdmitted", "BadId", "Exists", "Absent", "NotSealed", "AlreadySealed", "BadSize", "OutOfBounds", "Full", "Pending",
        "NotHeld", "Granted", "NotGranted", "DeviceFailed", "Damaged", "Busy", "TooMany", "Gone", "NoMemory", "Malformed", "NoRoom",
        "NotOwner", "NotResident", "Stale"};
    switch (result) {
    case STORE_LOST:
        return "the connection is lost";
    case STORE_PROTOCOL:
        return "what came is no reply";
    case STORE_NO_MEMORY_HERE:
        return "no memory in this process";
    case STORE_SILENT:
        return "the server is silent";
    case STORE_OTHER_LENGTH:
        return "the object has another length";
    default:
        return result >= STORE_OK && result <= STORE_STALE ? names[result] : "no result";
    }
}

/* ---- numbers and ids */

static void put_number(unsigned char *at, uint64_t number, int bytes)
{
    for (int index = bytes - 1; index >= 0; index--, number >>= 8)
        at[index] = (unsigned char)number;
}

static uint64_t number_at(const unsigned char *at, int bytes)
{
    uint64_t number = 0;
    for (int index = 0; index < bytes; index++)
        number = number << 8 | at[index];
    return number;
}

static bool is_length(uint64_t length)
{
    return length >= 1 && length <= STORE_LARGEST;
}

struct store_id store_id_of(uint64_t task, uint32_t job, uint32_t index)
{
    struct store_id id = {{0}};
    put_number(id.bytes + STORE_TASK_BYTES - 8, task, 8);
    put_number(id.bytes + STORE_TASK_BYTES, job, 4);
    put_number(id.bytes + STORE_TASK_BYTES + 4, index, 4);
    return id;
}

struct store_id store_new_id(struct store *store)
{
    /* once the indexes of a task are used up, the next task is taken */
    uint64_t task = number_at(store->task + STORE_TASK_BYTES - 8, 8) + store->made / UINT32_MAX;
    struct store_id id = store_id_of(task, store->job, (uint32_t)(store->made % UINT32_MAX) + 1);
    memcpy(id.bytes, store->task, STORE_TASK_BYTES - 8);
    store->made++;
    return id;
}

static bool is_own(const struct store *store, struct store_id id)
{
    return number_at(id.bytes + STORE_TASK_BYTES, 4) == store->job;
}

/* ---- time */

static int64_t now(void)
{
    struct timespec time;
    clock_gettime(CLOCK_MONOTONIC, &time);
    return (int64_t)time.tv_sec * 1000000 + time.tv_nsec / 1000;
}

static int64_t earlier(int64_t one, int64_t other)
{
    return one < other ? one : other;
}

/* A call begins. */
static void begin(struct store *store)
{
    store->end = store->limit > 0 ? now() + (int64_t)store->limit * 1000 : NEVER;
}

/* Until the socket takes or has something, or a signal has come. STORE_SILENT once the call's time is over. */
static int await(const struct store *store, short event)
{
    struct pollfd awaited = {.fd = store->socket, .events = event};
    int timeout = -1;
    if (store->end != NEVER) {
        int64_t left = store->end - now();
        if (left <= 0)
            return STORE_SILENT;
        timeout = (int)earlier(left / 1000 + 1, INT_MAX);
    }
    if (poll(&awaited, 1, timeout) < 0 && errno != EINTR)
        return STORE_LOST;
    return STORE_OK;
}

/* A signal may end it: then the next try comes early. */
static void sleep_until(int64_t moment)
{
    struct timespec until = {.tv_sec = (time_t)(moment / 1000000), .tv_nsec = (long)(moment % 1000000) * 1000};
    clock_nanosleep(CLOCK_MONOTONIC, TIMER_ABSTIME, &until, NULL);
}

/* Pauses until it is time for another try, in a wait that began and ends then. Whether there is time for one. */
static bool rest(const struct store *store, int64_t began, int64_t until)
{
    int64_t time = now(), end = earlier(until, store->end - LAST_LOOK), pause = (time - began) / PAUSES_IN_WAITED;
    if (time >= end)
        return false;
    if (pause < FIRST_PAUSE)
        pause = FIRST_PAUSE;
    sleep_until(earlier(time + earlier(pause, LONGEST_PAUSE), end));
    return true;
}

/* ---- the stream. The socket doesn't block. */

/* The session is over: what comes after a fault can't be told from a late reply. */
static void lose(struct store *store)
{
    int reason = errno;
    store_close(store);
    errno = reason;
}

/* Passes over parts that are sent, so many bytes of them. How many parts are sent whole. */
static size_t pass(struct iovec *parts, size_t count, size_t sent)
{
    size_t whole = 0;
    while (whole < count && sent >= parts[whole].iov_len)
        sent -= parts[whole++].iov_len;
    if (whole < count) {
        parts[whole].iov_base = (unsigned char *)parts[whole].iov_base + sent;
        parts[whole].iov_len -= sent;
    }
    return whole;
}

/* All is sent before a reply is read. A server that can't write a reply reads no further, so of what is sent together either the commands
 * or the replies are short: the replies to Writes, and the commands of Reads. They have room in a socket. */
static int send_all(const struct store *store, struct iovec *parts, size_t count)
{
    int result = STORE_OK;
    while (!result && count > 0) {
        struct msghdr message = {.msg_iov = parts, .msg_iovlen = count};
        /* a server that is gone is no reason for SIGPIPE */
        ssize_t sent = sendmsg(store->socket, &message, MSG_NOSIGNAL);
        if (sent < 0 && (errno == EPIPE || errno == ECONNRESET))
            return STORE_OK; /* it may have said why before it closed */
        if (sent < 0 && errno != EAGAIN && errno != EINTR)
            return STORE_LOST;
        size_t whole = sent > 0 ? pass(parts, count, (size_t)sent) : 0;
        parts += whole;
        count -= whole;
        if (count > 0)
            result = await(store, POLLOUT);
    }
    return result;
}

/* Reads so many bytes, and what comes with them ahead. Nothing was read ahead before. */
static int receive(struct replies *replies, unsigned char *bytes, size_t length)
{
    int result = STORE_OK;
    while (!result && length > 0) {
        struct iovec parts[2] = {{bytes, length}, {replies->ahead, sizeof replies->ahead}};
        struct msghdr message = {.msg_iov = parts, .msg_iovlen = 2};
        ssize_t got = recvmsg(replies->store->socket, &message, 0);
        if (got == 0)
            errno = 0;
        if (got == 0 || (got < 0 && errno != EAGAIN && errno != EINTR))
            return STORE_LOST;
        size_t came = got > 0 ? (size_t)got : 0, taken = came < length ? came : length;
        bytes += taken;
        length -= taken;
        replies->start = 0;
        replies->end = came - taken;
        if (length > 0)
            result = await(replies->store, POLLIN);
    }
    return result;
}

static int fill(struct replies *replies, unsigned char *bytes, size_t length)
{
    size_t ahead = replies->end - replies->start, taken = ahead < length ? ahead : length;
    if (length == 0)
        return STORE_OK;
    memcpy(bytes, replies->ahead + replies->start, taken);
    replies->start += taken;
    return receive(replies, bytes + taken, length - taken);
}

/* ---- a trip: commands are sent together, and their replies read */

static int receive_refusal(struct replies *replies, struct request *request)
{
    unsigned char number;
    int result = fill(replies, &number, 1);
    if (result)
        return result;
    request->result = number;
    if (number == STORE_MALFORMED)
        return STORE_MALFORMED; /* the server closes after it, and answers nothing more */
    return number >= STORE_NOT_ADMITTED && number <= STORE_STALE ? STORE_OK : STORE_PROTOCOL;
}

/* Reads the reply to a request. What isn't due is refused by its head, before a byte of it is taken. */
static int receive_reply(struct replies *replies, struct request *request)
{
    unsigned char head[HEAD_BYTES];
    int result = fill(replies, head, sizeof head);
    if (result)
        return result;
    uint64_t length = number_at(head, 4);
    if (head[4] == REFUSED && length == 2)
        return receive_refusal(replies, request);
    if (head[4] != request->due || length < 1 || length > LONGEST_REPLY)
        return STORE_PROTOCOL;
    request->came = (size_t)length - 1;
    if (request->came < request->least || request->came > request->most)
        return STORE_PROTOCOL;
    result = fill(replies, request->body ? request->body : request->reply, request->came);
    if (!result && request->due == GOT && !is_length(number_at(request->reply, LENGTH_BYTES)))
        result = STORE_PROTOCOL;
    return result;
}

static void count_holds(struct store *store, const struct request *request)
{
    if (request->result)
        return;
    if (request->due == GOT)
        store->holds++;
    else if (request->kind == RELEASE && store->holds > 0)
        store->holds--;
    else if (request->kind == LEAVE)
        store->holds = 0;
}

static int send_burst(const struct store *store, struct burst *burst)
{
    struct iovec parts[2 * MOST_REQUESTS];
    size_t count = 0;
    for (size_t index = 0; index < burst->count; index++) {
        struct request *request = &burst->requests[index];
        put_number(request->frame, request->length - 4 + request->count, 4);
        parts[count++] = (struct iovec){request->frame, request->length};
        /* what is sent isn't written to */
        if (request->count > 0)
            parts[count++] = (struct iovec){(void *)(uintptr_t)request->bytes, request->count};
    }
    return send_all(store, parts, count);
}

static int receive_burst(struct store *store, struct burst *burst)
{
    struct replies replies = {.store = store};
    int result = await(store, POLLIN);
    for (size_t index = 0; !result && index < burst->count; index++) {
        result = receive_reply(&replies, &burst->requests[index]);
        if (!result)
            count_holds(store, &burst->requests[index]);
    }
    /* more than was asked for */
    return !result && replies.start < replies.end ? STORE_PROTOCOL : result;
}

/* Each request is answered; or it is a fault or STORE_MALFORMED, and the session is over. */
static int exchange(struct store *store, struct burst *burst)
{
    if (store->socket < 0) {
        errno = ENOTCONN;
        return STORE_LOST;
    }
    int result = now() < store->end ? send_burst(store, burst) : STORE_SILENT;
    if (!result)
        result = receive_burst(store, burst);
    if (result)
        lose(store);
    return result;
}

static int first_refusal(const struct burst *burst)
{
    int result = STORE_OK;
    for (size_t index = 0; !result && index < burst->count; index++)
        result = burst->requests[index].result;
    return result;
}

/* The first refusal, or a fault. */
static int ask(struct store *store, struct burst *burst)
{
    int result = exchange(store, burst);
    return result ? result : first_refusal(burst);
}

/* ---- requests */

/* A command without fields, to which Ok is due. */
static struct request *add(struct burst *burst, enum command kind)
{
    struct request *request = &burst->requests[burst->count++];
    *request = (struct request){.kind = kind, .length = HEAD_BYTES, .due = OK};
    request->frame[4] = (unsigned char)kind;
    return request;
}

static void add_bytes(struct request *request, const void *bytes, size_t length)
{
    memcpy(request->frame + request->length, bytes, length);
    request->length += length;
}

static void add_number(struct request *request, uint64_t number, int bytes)
{
    put_number(request->frame + request->length, number, bytes);
    request->length += (size_t)bytes;
}

static struct request *add_for(struct burst *burst, enum command kind, struct store_id id)
{
    struct request *request = add(burst, kind);
    add_bytes(request, id.bytes, sizeof id.bytes);
    return request;
}

static void expect(struct request *request, enum reply due, void *body, size_t least, size_t most)
{
    request->due = due;
    request->body = body;
    request->least = least;
    request->most = most;
}

static struct request *add_get(struct burst *burst, enum command kind, struct store_id id)
{
    struct request *request = add_for(burst, kind, id);
    expect(request, GOT, NULL, LENGTH_BYTES, LENGTH_BYTES);
    return request;
}

static struct request *add_create(struct burst *burst, enum command command, struct store_id id, enum store_kind kind, uint32_t length)
{
    struct request *request = add_for(burst, command, id);
    add_number(request, kind, 1);
    add_number(request, length, 4);
    expect(request, PLACED, NULL, PLACED_BYTES, PLACED_BYTES);
    return request;
}

static void add_write(struct burst *burst, struct store_id id, uint32_t offset, const void *bytes, uint32_t length)
{
    struct request *request = add_for(burst, WRITE, id);
    add_number(request, offset, 4);
    request->bytes = bytes;
    request->count = length;
}

/* A Read or a Peek. */
static void add_read(struct burst *burst, enum command kind, struct store_id id, uint32_t offset, void *bytes, uint32_t length)
{
    struct request *request = add_for(burst, kind, id);
    add_number(request, offset, 4);
    add_number(request, length, 4);
    expect(request, BYTES, bytes, length, length);
}

static uint32_t piece(uint32_t left)
{
    return left < STORE_MOST_BYTES ? left : STORE_MOST_BYTES;
}

/* The Writes of the bytes from there on, as many as go in one trip. Where they end. */
static uint32_t add_writes(struct burst *burst, struct store_id id, const unsigned char *bytes, uint32_t at, uint32_t length)
{
    for (int pieces = 0; pieces < MOST_PIECES && at < length; pieces++) {
        uint32_t count = piece(length - at);
        add_write(burst, id, at, bytes + at, count);
        at += count;
    }
    return at;
}

/* The Reads or Peeks of them. */
static uint32_t add_reads(struct burst *burst, enum command kind, struct store_id id, unsigned char *bytes, uint32_t at, uint32_t length)
{
    for (int pieces = 0; pieces < MOST_PIECES && at < length; pieces++) {
        uint32_t count = piece(length - at);
        add_read(burst, kind, id, at, bytes + at, count);
        at += count;
    }
    return at;
}

static void add_releases(struct burst *burst, struct store_id id, int count)
{
    for (; count > 0; count--)
        add_for(burst, RELEASE, id);
}

/* ---- single commands */

static int tell(struct store *store, enum command kind, struct store_id id)
{
    struct burst burst;
    burst.count = 0;
    add_for(&burst, kind, id);
    return ask(store, &burst);
}

static int tell_job(struct store *store, enum command kind, struct store_id id, uint32_t job)
{
    struct burst burst;
    burst.count = 0;
    add_number(add_for(&burst, kind, id), job, 4);
    begin(store);
    return ask(store, &burst);
}

static int tell_task(struct store *store, enum command kind, struct store_id id, const unsigned char *task)
{
    struct burst burst;
    burst.count = 0;
    add_bytes(add_for(&burst, kind, id), task, STORE_TASK_BYTES);
    begin(store);
    return ask(store, &burst);
}

static int create(
    struct store *store, enum command command, struct store_id id, enum store_kind kind, uint32_t length, struct store_placed *placed)
{
    struct burst burst;
    burst.count = 0;
    const struct request *request = add_create(&burst, command, id, kind, length);
    int result = ask(store, &burst);
    if (!result && placed)
        *placed = (struct store_placed){(uint32_t)number_at(request->reply, 4), (uint32_t)number_at(request->reply + 4, 4)};
    return result;
}

static int hold(struct store *store, enum command kind, struct store_id id, uint32_t *length)
{
    struct burst burst;
    burst.count = 0;
    const struct request *request = add_get(&burst, kind, id);
    begin(store);
    int result = ask(store, &burst);
    if (!result)
        *length = (uint32_t)number_at(request->reply, LENGTH_BYTES);
    return result;
}

static int read_piece(struct store *store, enum command kind, struct store_id id, uint32_t offset, void *bytes, uint32_t length)
{
    struct burst burst;
    burst.count = 0;
    add_read(&burst, kind, id, offset, bytes, length);
    begin(store);
    return ask(store, &burst);
}

/* ---- lists */

static bool read_own_items(const unsigned char *at, struct store_item *items, size_t count)
{
    bool is_right = true;
    for (size_t index = 0; index < count; index++, at += OWN_ITEM) {
        const unsigned char *fields = at + STORE_ID_BYTES;
        struct store_item *item = &items[index];
        *item = (struct store_item){.length = (uint32_t)number_at(fields + 2, 4), .state = fields[0], .kind = fields[1]};
        memcpy(item->id.bytes, at, STORE_ID_BYTES);
        bool has_length = is_length(item->length) || (item->length == 0 && item->state == STORE_FETCHING);
        is_right = is_right && fields[0] <= STORE_AWAY && fields[1] <= STORE_SECONDARY && has_length;
    }
    return is_right;
}

static bool read_granted_items(const unsigned char *at, struct store_item *items, size_t count)
{
    bool is_right = true;
    for (size_t index = 0; index < count; index++, at += GRANTED_ITEM) {
        const unsigned char *fields = at + STORE_ID_BYTES;
        struct store_item *item = &items[index];
        *item = (struct store_item){.length = (uint32_t)number_at(fields, 4), .state = STORE_SEALED, .depth = fields[4]};
        memcpy(item->id.bytes, at, STORE_ID_BYTES);
        is_right = is_right && is_length(item->length);
    }
    return is_right;
}

/* Takes the body of a List apart, which has 8 bytes at least. No memory is taken for items that it hasn't. */
static int read_listing(const unsigned char *body, size_t length, struct store_listing *listing)
{
    uint64_t own = number_at(body, 4);
    if (own > (length - 8) / OWN_ITEM)
        return STORE_PROTOCOL;
    size_t granted_at = 4 + (size_t)own * OWN_ITEM;
    uint64_t granted = number_at(body + granted_at, 4);
    if (granted * GRANTED_ITEM != length - 4 - granted_at)
        return STORE_PROTOCOL;
    *listing = (struct store_listing){.own = (size_t)own, .granted = (size_t)granted};
    listing->items = malloc((listing->own + listing->granted + 1) * sizeof *listing->items);
    if (!listing->items)
        return STORE_NO_MEMORY_HERE;
    if (read_own_items(body + 4, listing->items, listing->own) &&
        read_granted_items(body + granted_at + 4, listing->items + listing->own, listing->granted))
        return STORE_OK;
    free(listing->items);
    return STORE_PROTOCOL;
}

static int list(struct store *store, struct store_listing *listing)
{
    struct burst burst;
    unsigned char *body = malloc(LONGEST_REPLY);
    if (!body)
        return STORE_NO_MEMORY_HERE;
    burst.count = 0;
    struct request *request = add(&burst, LIST);
    expect(request, LISTED, body, 8, LONGEST_REPLY);
    int result = ask(store, &burst);
    if (!result)
        result = read_listing(body, request->came, listing);
    if (result == STORE_PROTOCOL)
        lose(store);
    free(body);
    return result;
}

/* The object among items; null if it isn't there. */
static const struct store_item *find_item(const struct store_item *items, size_t count, struct store_id id)
{
    for (; count > 0; items++, count--)
        if (memcmp(items->id.bytes, id.bytes, sizeof id.bytes) == 0)
            return items;
    return NULL;
}

/* Whether the job has a copy here that is a fetch, and whether it has one that isn't. */
static int look_up(struct store *store, struct store_id id, bool *is_fetch, bool *is_other)
{
    struct store_listing listing;
    int result = list(store, &listing);
    if (result)
        return result;
    const struct store_item *item = find_item(listing.items, listing.own, id);
    *is_fetch = item && item->state == STORE_FETCHING;
    *is_other = item && item->state != STORE_FETCHING;
    free(listing.items);
    return STORE_OK;
}

/* ---- how a get looks for what may not be there yet, and leaves nothing in a producer's way
 *
 * A Get of an id that the node doesn't know enters a fetch, and is Pending. The next Get is told what came of it: if no node has the
 * object sealed it is Absent, and the fetch is removed. In between a Create of the object is Exists. So a Get that is Pending is followed
 * by another at once, and from the second look on both are sent together. What is Pending after two Gets is on its way, and comes by
 * itself: a Read of no bytes asks about it and changes nothing, and a Get does so now and then. A fetch that finds no room is deleted.
 */

enum phase {
    UNKNOWN,   /* one Get is next */
    ENTERED,   /* one Get, at once */
    UNDER_WAY, /* a Read of no bytes, or a Get when it is time */
    MISSING,   /* two Gets */
    FOUND,     /* nothing: it is here */
    OVER       /* nothing: it is refused for a reason that doesn't pass */
};

/* What is known of an object that is looked for. */
struct search {
    struct store_id id;
    /* until when it is awaited that somebody puts it, if it is */
    bool awaits_put;
    int64_t until;
    enum phase phase;
    int refusal;
    /* once it is found */
    int holds;
    uint32_t length;
    int64_t reminder, remind_at;
};

static struct search search_for(struct store_id id)
{
    return (struct search){.id = id, .until = NEVER, .phase = UNKNOWN, .reminder = FIRST_REMINDER};
}

static enum phase phase_after(struct search *search, int refusal)
{
    if (refusal == STORE_PENDING) {
        /* this Get may have entered the fetch */
        if (search->refusal != STORE_PENDING)
            return ENTERED;
        search->remind_at = now() + search->reminder;
        search->reminder = earlier(2 * search->reminder, LAST_REMINDER);
        return UNDER_WAY;
    }
    search->reminder = FIRST_REMINDER;
    return refusal == STORE_ABSENT || refusal == STORE_NOT_SEALED || refusal == STORE_BUSY ? MISSING : OVER;
}

/* Takes the answer to a Get. */
static void hear(struct search *search, const struct request *get)
{
    if (!get->result) {
        search->holds++;
        search->length = (uint32_t)number_at(get->reply, LENGTH_BYTES);
        search->phase = FOUND;
    } else if (search->phase != FOUND) {
        search->phase = phase_after(search, get->result);
        search->refusal = get->result;
    }
}

/* Gives up the copy that found no room, if it is a fetch. If the Delete is refused somebody else was first. */
static int drop_fetch(struct store *store, struct store_id id)
{
    bool is_fetch, is_other;
    int result = look_up(store, id, &is_fetch, &is_other);
    if (!result && is_fetch)
        result = tell(store, DELETE, id);
    return result < STORE_OK ? result : STORE_OK;
}

static int look_by_gets(struct store *store, struct search *search)
{
    struct burst burst;
    burst.count = 0;
    add_get(&burst, GET, search->id);
    if (search->phase == MISSING)
        add_get(&burst, GET, search->id);
    int result = exchange(store, &burst);
    if (result)
        return result;
    for (size_t index = 0; index < burst.count; index++)
        hear(search, &burst.requests[index]);
    if (search->phase != FOUND && (search->refusal == STORE_FULL || search->refusal == STORE_BAD_SIZE))
        return drop_fetch(store, search->id);
    return STORE_OK;
}

static int look_by_read(struct store *store, struct search *search)
{
    struct burst burst;
    burst.count = 0;
    add_read(&burst, READ, search->id, 0, NULL, 0);
    int result = exchange(store, &burst);
    /* a copy that isn't being fetched any more is here, or being restored, or gone: a Get tells */
    if (!result && burst.requests[0].result != STORE_NOT_SEALED)
        search->phase = ENTERED;
    return result;
}

/* One look, asked to its end. Only a fault is given. */
static int look(struct store *store, struct search *search)
{
    int result;
    do {
        bool is_moving = search->phase == UNDER_WAY && now() < search->remind_at;
        result = is_moving ? look_by_read(store, search) : look_by_gets(store, search);
    } while (!result && search->phase == ENTERED);
    return result;
}

/* Looks for an object of this job until it is here and held, or is refused, or the time is over. */
static int find_own(struct store *store, struct search *search)
{
    int64_t began = now();
    bool was_moving = false;
    do {
        int result = look(store, search);
        if (result || search->phase == FOUND)
            return result;
        bool is_moving = search->refusal == STORE_PENDING;
        /* what is on its way is waited for in any case */
        if (search->phase == OVER || !(is_moving || search->awaits_put))
            return search->refusal;
        /* and takes as long as it does, however late it began */
        if (is_moving && !was_moving)
            began = now();
        was_moving = is_moving;
    } while (rest(store, began, search->until));
    return search->refusal;
}

/* Looks for an object that another job granted, which isn't held. */
static int find_granted(struct store *store, struct search *search)
{
    int64_t began = now();
    do {
        struct store_listing listing;
        int result = list(store, &listing);
        if (result)
            return result;
        const struct store_item *item = find_item(listing.items + listing.own, listing.granted, search->id);
        search->length = item ? item->length : 0;
        free(listing.items);
        if (search->length > 0)
            return STORE_OK;
    } while (search->awaits_put && rest(store, began, search->until));
    return STORE_NOT_GRANTED;
}

static int find(struct store *store, struct search *search)
{
    return is_own(store, search->id) ? find_own(store, search) : find_granted(store, search);
}

/* Gives up what the search holds, if anything. Only a fault is given. */
static int let_go(struct store *store, struct search *search)
{
    struct burst burst;
    burst.count = 0;
    add_releases(&burst, search->id, search->holds);
    search->holds = 0;
    return burst.count > 0 ? exchange(store, &burst) : STORE_OK;
}

/* All bytes of what was found. The holds are given up with the last of them. */
static int read_all(struct store *store, struct search *search, unsigned char *bytes)
{
    enum command kind = is_own(store, search->id) ? READ : PEEK;
    uint32_t at = 0;
    int result = STORE_OK;
    while (!result && at < search->length) {
        struct burst burst;
        burst.count = 0;
        at = add_reads(&burst, kind, search->id, bytes, at, search->length);
        if (at == search->length) {
            add_releases(&burst, search->id, search->holds);
            search->holds = 0;
        }
        result = ask(store, &burst);
    }
    if (result > STORE_OK)
        let_go(store, search);
    return result;
}

/* ---- gets */

static int get(struct store *store, struct search *search, void **bytes, size_t *length)
{
    int result = find(store, search);
    if (result)
        return result;
    void *buffer = malloc(search->length);
    if (!buffer) {
        result = let_go(store, search);
        return result ? result : STORE_NO_MEMORY_HERE;
    }
    result = read_all(store, search, buffer);
    if (result) {
        free(buffer);
        return result;
    }
    *bytes = buffer;
    *length = search->length;
    return STORE_OK;
}

/* If the Get is refused the Release would give up another hold of the session: it is for a session that holds nothing. */
static int get_in_one_trip(struct store *store, struct store_id id, void *bytes, uint32_t length)
{
    struct burst burst;
    burst.count = 0;
    const struct request *got = add_get(&burst, GET, id);
    add_reads(&burst, READ, id, bytes, 0, length);
    add_releases(&burst, id, 1);
    int result = exchange(store, &burst);
    if (result || got->result)
        return result ? result : got->result;
    return number_at(got->reply, LENGTH_BYTES) == length ? first_refusal(&burst) : STORE_OTHER_LENGTH;
}

int store_get(struct store *store, struct store_id id, void **bytes, size_t *length)
{
    struct search search = search_for(id);
    begin(store);
    return get(store, &search, bytes, length);
}

int store_get_into(struct store *store, struct store_id id, void *bytes, size_t length)
{
    if (!is_length(length))
        return STORE_OTHER_LENGTH;
    begin(store);
    if (length <= ONE_TRIP && store->holds == 0 && is_own(store, id)) {
        int result = get_in_one_trip(store, id, bytes, (uint32_t)length);
        if (result != STORE_PENDING)
            return result;
    }
    struct search search = search_for(id);
    int result = find(store, &search);
    if (result)
        return result;
    if (search.length != length) {
        result = let_go(store, &search);
        return result ? result : STORE_OTHER_LENGTH;
    }
    return read_all(store, &search, bytes);
}

int store_wait(struct store *store, struct store_id id, uint32_t milliseconds, void **bytes, size_t *length)
{
    struct search search = search_for(id);
    search.awaits_put = true;
    search.until = now() + (int64_t)milliseconds * 1000;
    begin(store);
    return get(store, &search, bytes, length);
}

/* ---- puts
 *
 * A put under a new id, which nobody else can know, goes in one trip: Create, the Writes, Seal. Under an id that was given others may know
 * the object. So it is created first, since otherwise our Writes would go into a copy that another producer is writing; and it is sealed
 * once all Writes are answered, since nobody should see it half written.
 *
 * A Create that meets a fetch in the object's place takes it away, by a Get and never by a Delete: a fetch that failed is removed by that,
 * and any other copy stays what it is.
 */

/* Creates the copy in the place of a fetch that has failed. Pending as long as it hasn't; Exists if another copy is there. */
static int take_fetch_away(struct store *store, struct store_id id, uint32_t length)
{
    struct burst burst;
    bool is_fetch, is_other;
    int result = look_up(store, id, &is_fetch, &is_other);
    if (result || is_other)
        return result ? result : STORE_EXISTS;
    burst.count = 0;
    const struct request *got = add_get(&burst, GET, id), *created = add_create(&burst, CREATE, id, STORE_PRIMARY, length);
    result = exchange(store, &burst);
    if (result)
        return result;
    if (created->result && !got->result) {
        result = tell(store, RELEASE, id);
        return result < STORE_OK ? result : STORE_EXISTS;
    }
    return created->result == STORE_EXISTS ? STORE_PENDING : created->result;
}

/* Creates the copy, once there is room and no fetch in its place. */
static int reserve(struct store *store, struct store_id id, uint32_t length)
{
    int64_t began = now();
    int result;
    do {
        result = create(store, CREATE, id, STORE_PRIMARY, length, NULL);
        if (result == STORE_EXISTS)
            result = take_fetch_away(store, id, length);
    } while ((result == STORE_PENDING || result == STORE_BUSY) && rest(store, began, NEVER));
    return result;
}

static int write_and_seal(struct store *store, struct store_id id, const unsigned char *bytes, uint32_t length, bool is_secret)
{
    uint32_t at = 0;
    bool is_sealed = false;
    int result = STORE_OK;
    while (!result && at < length) {
        struct burst burst;
        burst.count = 0;
        at = add_writes(&burst, id, bytes, at, length);
        is_sealed = is_secret && at == length;
        if (is_sealed)
            add_for(&burst, SEAL, id);
        result = ask(store, &burst);
    }
    return result || is_sealed ? result : tell(store, SEAL, id);
}

/* Create, the Writes and Seal together. Nothing of it is left if it is refused. */
static int put_in_one_trip(struct store *store, struct store_id id, const void *bytes, uint32_t length)
{
    struct burst burst;
    burst.count = 0;
    const struct request *created = add_create(&burst, CREATE, id, STORE_PRIMARY, length);
    add_writes(&burst, id, bytes, 0, length);
    add_for(&burst, SEAL, id);
    int result = exchange(store, &burst);
    if (result)
        return result;
    result = first_refusal(&burst);
    if (result && !created->result)
        tell(store, DELETE, id);
    return result;
}

static int put(struct store *store, struct store_id id, const void *bytes, uint32_t length, bool is_secret)
{
    int result = reserve(store, id, length);
    if (result)
        return result;
    result = write_and_seal(store, id, bytes, length, is_secret);
    if (result > STORE_OK)
        tell(store, DELETE, id);
    return result;
}

int store_put(struct store *store, struct store_id id, const void *bytes, size_t length)
{
    if (length > UINT32_MAX)
        return STORE_BAD_SIZE; /* no frame can say that */
    begin(store);
    return put(store, id, bytes, (uint32_t)length, false);
}

int store_put_new(struct store *store, struct store_id *id, const void *bytes, size_t length)
{
    int result = STORE_PENDING;
    if (length > UINT32_MAX)
        return STORE_BAD_SIZE;
    begin(store);
    *id = store_new_id(store);
    if (length >= 1 && length <= ONE_TRIP)
        result = put_in_one_trip(store, *id, bytes, (uint32_t)length);
    if (result == STORE_PENDING || result == STORE_BUSY)
        result = put(store, *id, bytes, (uint32_t)length, true);
    return result;
}

/* ---- the session */

static int connect_to(struct store *store, const char *path)
{
    struct sockaddr_un address = {.sun_family = AF_UNIX};
    if (strlen(path) >= sizeof address.sun_path) {
        errno = ENAMETOOLONG;
        return STORE_LOST;
    }
    memcpy(address.sun_path, path, strlen(path) + 1);
    store->socket = socket(AF_UNIX, SOCK_STREAM | SOCK_CLOEXEC | SOCK_NONBLOCK, 0);
    if (store->socket < 0)
        return STORE_LOST;
    while (connect(store->socket, (struct sockaddr *)&address, sizeof address) < 0) {
        /* the server's queue may be full */
        if (errno != EAGAIN && errno != EINTR)
            return STORE_LOST;
        if (now() >= store->end)
            return STORE_SILENT;
        sleep_until(earlier(now() + QUEUE_PAUSE, store->end));
    }
    return STORE_OK;
}

int store_connect_within(struct store *store, const char *path, uint32_t job, const unsigned char *key, uint32_t milliseconds)
{
    struct burst burst;
    *store = (struct store){.socket = -1, .job = job, .limit = milliseconds > 0 ? milliseconds : STORE_OPENING};
    begin(store);
    store->limit = milliseconds;
    int result = STORE_LOST;
    if (getrandom(store->task, sizeof store->task, 0) == sizeof store->task)
        result = connect_to(store, path);
    if (result) {
        lose(store);
        return result;
    }
    burst.count = 0;
    struct request *hello = add(&burst, HELLO);
    add_number(hello, job, 4);
    add_bytes(hello, key, STORE_KEY_BYTES);
    return ask(store, &burst);
}

int store_connect(struct store *store, const char *path, uint32_t job, const unsigned char *key)
{
    return store_connect_within(store, path, job, key, 0);
}

void store_close(struct store *store)
{
    if (store->socket >= 0)
        close(store->socket);
    store->socket = -1;
}

void store_set_timeout(struct store *store, uint32_t milliseconds)
{
    store->limit = milliseconds;
}

/* ---- the calls of single commands */

int store_create(struct store *store, struct store_id id, uint32_t length)
{
    return store_create_as(store, id, STORE_PRIMARY, length, NULL);
}

int store_create_as(struct store *store, struct store_id id, enum store_kind kind, uint32_t length, struct store_placed *placed)
{
    begin(store);
    return create(store, CREATE, id, kind, length, placed);
}

int store_create_wait(struct store *store, struct store_id id, enum store_kind kind, uint32_t length, struct store_placed *placed)
{
    begin(store);
    return create(store, CREATE_WAIT, id, kind, length, placed);
}

int store_write(struct store *store, struct store_id id, uint32_t offset, const void *bytes, uint32_t length)
{
    struct burst burst;
    if (length > STORE_MOST_BYTES)
        return STORE_BAD_SIZE; /* what is much longer is no frame, and would end the session */
    burst.count = 0;
    add_write(&burst, id, offset, bytes, length);
    begin(store);
    return ask(store, &burst);
}

int store_seal(struct store *store, struct store_id id)
{
    begin(store);
    return tell(store, SEAL, id);
}

int store_hold(struct store *store, struct store_id id, uint32_t *length)
{
    return hold(store, GET, id, length);
}

int store_hold_wait(struct store *store, struct store_id id, uint32_t *length)
{
    return hold(store, GET_WAIT, id, length);
}

int store_read(struct store *store, struct store_id id, uint32_t offset, void *bytes, uint32_t length)
{
    return read_piece(store, READ, id, offset, bytes, length);
}

int store_release(struct store *store, struct store_id id)
{
    begin(store);
    return tell(store, RELEASE, id);
}

int store_leave(struct store *store)
{
    struct burst burst;
    burst.count = 0;
    add(&burst, LEAVE);
    begin(store);
    return ask(store, &burst);
}

int store_delete(struct store *store, struct store_id id)
{
    begin(store);
    return tell(store, DELETE, id);
}

int store_end_task(struct store *store, const unsigned char *task)
{
    struct burst burst;
    burst.count = 0;
    add_bytes(add(&burst, END_TASK), task, STORE_TASK_BYTES);
    begin(store);
    return ask(store, &burst);
}

int store_unpin(struct store *store, struct store_id id, const unsigned char *task)
{
    return tell_task(store, UNPIN, id, task);
}

int store_borrow(struct store *store, struct store_id id, const unsigned char *task)
{
    return tell_task(store, BORROW, id, task);
}

int store_give_up(struct store *store, struct store_id id, const unsigned char *task)
{
    return tell_task(store, GIVE_UP, id, task);
}

int store_grant(struct store *store, struct store_id id, uint32_t job)
{
    return tell_job(store, GRANT, id, job);
}

int store_withdraw(struct store *store, struct store_id id, uint32_t job)
{
    return tell_job(store, WITHDRAW, id, job);
}

int store_peek(struct store *store, struct store_id id, uint32_t offset, void *bytes, uint32_t length)
{
    return read_piece(store, PEEK, id, offset, bytes, length);
}

int store_list(struct store *store, struct store_listing *listing)
{
    begin(store);
    return list(store, listing);
}

int store_usage(struct store *store, struct store_usage *usage)
{
    struct burst burst;
    burst.count = 0;
    struct request *request = add(&burst, USAGE);
    expect(request, USED, NULL, USAGE_BYTES, USAGE_BYTES);
    begin(store);
    int result = ask(store, &burst);
    if (result)
        return result;
    uint64_t *const numbers[] = {&usage->window, &usage->window_used, &usage->device, &usage->device_used, &usage->copies, &usage->works};
    for (int index = 0; index < 6; index++)
        *numbers[index] = number_at(request->reply + 8 * index, 8);
    return STORE_OK;
}
