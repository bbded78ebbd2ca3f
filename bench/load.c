/* The load of bench/serve. Connections, each in a thread with a job of its own, ask a server for the same again and again:
 *
 *     load WHAT BYTES SECONDS PATH JOB KEY [PATH JOB KEY ..]
 *
 *     put       Create, Writes, Seal and Delete of an object of so many bytes
 *     get       Get, Reads and Release of one
 *     put-once  the commands of a put in one write, of at most 1 MiB
 *     get-once  those of a get
 *     together  16 commands at once, in one write: Usage, Get and Release of an object of so many bytes in turn
 *     apart     these commands, each once the one before is answered
 *
 * or, of a Redis server, for which the key is as long and means nothing,
 *
 *     set-redis  SET of so many bytes, under a name with the job's number
 *     get-redis  GET of them
 *
 * Prints how many times that was done, and in how many seconds. These print three numbers more, for the first connection gets, reads and
 * releases an object of 1 KiB meanwhile: milliseconds of such a get at the median, at the 99th percentile and at most. Each other one has
 *
 *     reads     Get, Reads and Release of an object
 *     seals     Create, Seal and Delete
 *     creates   Create and Delete
 *     restores  two objects in a window of one, of which each Get restores the one that is away: GetWait and Release
 *     spills    eight objects in a window of eight, and eight Creates more, each of which spills one: once, and then all end
 *     floods    what `together` asks; several may be of one job, and at another server than the first connection
 *
 *     load floor PATH
 *
 * is a server that answers each of the store's commands at once and keeps no object: its replies have the lengths of the store's, and the
 * bytes that are due, and those to commands that came together are one write. It says that it is ready in a line on standard output.
 *
 * Connections enter, and refusals are named, by the C client; its calls make their commands while they are timed. Here a command is one write,
 * and is made before it is timed. The kind and length of each reply are looked at, of the bytes of each first get all, and of
 * later ones some. What is wrong ends all with status 1, and a line that says what.
 */
#define _GNU_SOURCE
#include "store_client.h"

#include <arpa/inet.h>
#include <errno.h>
#include <fcntl.h>
#include <pthread.h>
#include <signal.h>
#include <stdarg.h>
#include <stdatomic.h>
#include <stdbool.h>
#include <stdio.h>
#include <stdlib.h>
#include <string.h>
#include <sys/prctl.h>
#include <sys/socket.h>
#include <sys/uio.h>
#include <sys/un.h>
#include <time.h>
#include <unistd.h>

enum command {
    CREATE = 0x02,
    WRITE = 0x03,
    SEAL = 0x04,
    GET = 0x05,
    READ = 0x06,
    RELEASE = 0x07,
    DELETE = 0x0b,
    USAGE = 0x11,
    GET_WAIT = 0x13,
    CREATE_WAIT = 0x14
};

enum reply { OK = 0x80, PLACED = 0x81, GOT = 0x82, BYTES = 0x83, USED = 0x85, REFUSED = 0x8f };

enum {
    HEAD_BYTES = 5,
    PLACED_BYTES = 8,
    USAGE_BYTES = 48,
    LONGEST_OBJECT = 1 << 24,
    LONGEST_FRAME = 4 + 65600,
    SMALL = 1 << 10,
    AT_ONCE = 16,
    /* of which an object in one trip may be, and what the commands of its put come to */
    LARGEST_ONCE = 1 << 20,
    MOST_DUE = LARGEST_ONCE / STORE_MOST_BYTES + 3,
    SPILLED = 8,
    LONGEST_HEAD = 16,
    /* of which the times are kept */
    MOST_TIMES = 1 << 22,
    MOST_SECONDS = 3600,
    /* seconds that an answer may take */
    PATIENCE = 60
};

/* What a command of this kind has to be answered: the reply's beginning, how many bytes come after that, whether and where they are the
 * object's, and how many come after those. */
struct due {
    enum command kind;
    unsigned char head[LONGEST_HEAD];
    size_t head_length, length, rest;
    bool is_content;
    uint32_t offset;
};

/* Commands that go out at once. */
struct trip {
    unsigned char *sent;
    size_t length;
    struct due due[MOST_DUE];
    int count;
    size_t answer_length;
};

struct script {
    struct trip *trips;
    int count;
};

/* A connection: what it asks before all begin, again and again (or once), and at the end; and what came of it. */
struct client {
    const char *path;
    uint32_t job;
    /* of the connection, from 1 */
    uint32_t number;
    bool is_redis;
    unsigned char key[STORE_KEY_BYTES];
    struct script before, timed, after;
    bool is_once;
    /* of each of the timed, in seconds, if they are asked for */
    double *times;
    struct store store;
    unsigned char *answer;
    long done;
    double began, ended;
};

/* An object's bytes, the same ones each time; and some more, so that the floor gives no others, whatever is asked. */
static unsigned char content[LONGEST_OBJECT + STORE_MOST_BYTES];
static double seconds;
static pthread_barrier_t all_are_ready;
/* one of them has done what it had to, and the others end too */
static atomic_bool is_over;

/* Only one thread says why all ends. */
__attribute__((noreturn, format(printf, 1, 2))) static void fail(const char *text, ...)
{
    va_list words;
    flockfile(stderr);
    va_start(words, text);
    fputs("load: ", stderr);
    vfprintf(stderr, text, words);
    fputc('\n', stderr);
    va_end(words);
    _exit(1);
}

static void *memory(void *old, size_t length)
{
    void *there = realloc(old, length);
    if (!there)
        fail("no memory here");
    return there;
}

static double now(void)
{
    struct timespec time;
    clock_gettime(CLOCK_MONOTONIC, &time);
    return (double)time.tv_sec + (double)time.tv_nsec / 1e9;
}

static uint32_t number_at(const unsigned char *at)
{
    uint32_t number;
    memcpy(&number, at, sizeof number);
    return ntohl(number);
}

static void put_number(unsigned char *at, uint32_t number)
{
    number = htonl(number);
    memcpy(at, &number, sizeof number);
}

/* ---- what is asked */

static struct trip *new_trip(struct script *script)
{
    script->trips = memory(script->trips, (size_t)(script->count + 1) * sizeof *script->trips);
    struct trip *trip = &script->trips[script->count++];
    memset(trip, 0, sizeof *trip);
    return trip;
}

static void append(struct trip *trip, const void *bytes, size_t count)
{
    trip->sent = memory(trip->sent, trip->length + count);
    memcpy(trip->sent + trip->length, bytes, count);
    trip->length += count;
}

static void append_number(struct trip *trip, uint32_t number)
{
    unsigned char bytes[4];
    put_number(bytes, number);
    append(trip, bytes, sizeof bytes);
}

/* A command but for its fields, which take so many bytes; it has to be answered by a reply of this kind and length. */
static struct due *begin_command(struct trip *trip, enum command kind, size_t fields, enum reply reply, size_t length)
{
    unsigned char byte = (unsigned char)kind;
    append_number(trip, (uint32_t)(1 + fields));
    append(trip, &byte, 1);
    struct due *due = &trip->due[trip->count++];
    due->kind = kind;
    put_number(due->head, (uint32_t)(1 + length));
    due->head[4] = (unsigned char)reply;
    due->head_length = HEAD_BYTES;
    due->length = length;
    due->is_content = reply == BYTES;
    trip->answer_length += HEAD_BYTES + length;
    return due;
}

static void add_usage(struct trip *trip)
{
    begin_command(trip, USAGE, 0, USED, USAGE_BYTES);
}

/* Get, or what is answered Ok: a command that names an object and no more. */
static void add(struct trip *trip, enum command kind, struct store_id id)
{
    bool gets = kind == GET || kind == GET_WAIT;
    begin_command(trip, kind, sizeof id.bytes, gets ? GOT : OK, gets ? 4 : 0);
    append(trip, id.bytes, sizeof id.bytes);
}

static void add_create(struct trip *trip, enum command kind, struct store_id id, uint32_t length)
{
    begin_command(trip, kind, sizeof id.bytes + 5, PLACED, PLACED_BYTES);
    append(trip, id.bytes, sizeof id.bytes);
    append(trip, "", 1); /* a primary */
    append_number(trip, length);
}

static void add_write(struct trip *trip, struct store_id id, uint32_t offset, uint32_t count)
{
    begin_command(trip, WRITE, sizeof id.bytes + 4 + count, OK, 0);
    append(trip, id.bytes, sizeof id.bytes);
    append_number(trip, offset);
    append(trip, content + offset, count);
}

static void add_read(struct trip *trip, struct store_id id, uint32_t offset, uint32_t count)
{
    begin_command(trip, READ, sizeof id.bytes + 8, BYTES, count)->offset = offset;
    append(trip, id.bytes, sizeof id.bytes);
    append_number(trip, offset);
    append_number(trip, count);
}

static uint32_t piece_at(uint32_t offset, uint32_t length)
{
    return length - offset < STORE_MOST_BYTES ? length - offset : STORE_MOST_BYTES;
}

static void put(struct script *script, struct store_id id, uint32_t length)
{
    add_create(new_trip(script), CREATE, id, length);
    for (uint32_t at = 0; at < length; at += STORE_MOST_BYTES)
        add_write(new_trip(script), id, at, piece_at(at, length));
    add(new_trip(script), SEAL, id);
}

/* An object of zeros, which nobody reads. */
static void seal(struct script *script, struct store_id id, uint32_t length)
{
    add_create(new_trip(script), CREATE_WAIT, id, length);
    add(new_trip(script), SEAL, id);
}

static void prepare_puts(struct client *client, uint32_t length)
{
    struct store_id one = store_id_of(1, client->job, 1);
    put(&client->timed, one, length);
    add(new_trip(&client->timed), DELETE, one);
}

static void prepare_gets(struct client *client, uint32_t length)
{
    struct store_id one = store_id_of(1, client->job, 1);
    put(&client->before, one, length);
    add(new_trip(&client->timed), GET, one);
    for (uint32_t at = 0; at < length; at += STORE_MOST_BYTES)
        add_read(new_trip(&client->timed), one, at, piece_at(at, length));
    add(new_trip(&client->timed), RELEASE, one);
    add(new_trip(&client->after), DELETE, one);
}

/* Makes one trip of a script's. */
static void join(struct script *script)
{
    struct trip all = {0};
    for (int index = 0; index < script->count; index++) {
        const struct trip *trip = &script->trips[index];
        if (all.count + trip->count > MOST_DUE)
            fail("in one trip go objects of %d bytes at most", LARGEST_ONCE);
        append(&all, trip->sent, trip->length);
        memcpy(all.due + all.count, trip->due, (size_t)trip->count * sizeof *trip->due);
        all.count += trip->count;
        all.answer_length += trip->answer_length;
        free(trip->sent);
    }
    script->count = 0;
    *new_trip(script) = all;
}

static void prepare_puts_once(struct client *client, uint32_t length)
{
    prepare_puts(client, length);
    join(&client->timed);
}

static void prepare_gets_once(struct client *client, uint32_t length)
{
    prepare_gets(client, length);
    join(&client->timed);
}

/* A command of Redis but for its last word: so many words, of which these are the first two. What answers it begins with `head`. */
static struct due *begin_redis(struct trip *trip, const struct client *client, int words, const char *command, const char *head)
{
    char name[LONGEST_HEAD], begin[8 * LONGEST_HEAD];
    struct due *due = &trip->due[trip->count++];
    int length = snprintf(name, sizeof name, "object%u", client->job);
    length = snprintf(begin, sizeof begin, "*%d\r\n$%zu\r\n%s\r\n$%d\r\n%s\r\n", words, strlen(command), command, length, name);
    append(trip, begin, (size_t)length);
    due->head_length = strlen(head);
    memcpy(due->head, head, due->head_length);
    trip->answer_length += due->head_length;
    return due;
}

static void add_set(struct script *script, const struct client *client, uint32_t length)
{
    char head[LONGEST_HEAD];
    struct trip *trip = new_trip(script);
    begin_redis(trip, client, 3, "SET", "+OK\r\n");
    append(trip, head, (size_t)snprintf(head, sizeof head, "$%u\r\n", length));
    append(trip, content, length);
    append(trip, "\r\n", 2);
}

static void prepare_redis_sets(struct client *client, uint32_t length)
{
    client->is_redis = true;
    add_set(&client->timed, client, length);
}

static void prepare_redis_gets(struct client *client, uint32_t length)
{
    char head[LONGEST_HEAD];
    client->is_redis = true;
    add_set(&client->before, client, length);
    snprintf(head, sizeof head, "$%u\r\n", length);
    struct trip *trip = new_trip(&client->timed);
    struct due *due = begin_redis(trip, client, 2, "GET", head);
    due->length = length;
    due->is_content = true;
    due->rest = 2;
    trip->answer_length += length + due->rest;
}

/* Usage, Get, Release in turn, and no Get is left without its Release. */
static void prepare_burst(struct client *client, uint32_t length, bool is_together)
{
    struct store_id one = store_id_of(1, client->job, client->number);
    struct trip *trip = NULL;
    put(&client->before, one, length);
    for (int turn = 0; turn < AT_ONCE; turn++) {
        if (!trip || !is_together)
            trip = new_trip(&client->timed);
        if (turn % 3 == 0)
            add_usage(trip);
        else
            add(trip, turn % 3 == 1 ? GET : RELEASE, one);
    }
    add(new_trip(&client->after), DELETE, one);
}

static void prepare_together(struct client *client, uint32_t length)
{
    prepare_burst(client, length, true);
}

static void prepare_apart(struct client *client, uint32_t length)
{
    prepare_burst(client, length, false);
}

static void prepare_creates(struct client *client, uint32_t length)
{
    struct store_id one = store_id_of(1, client->job, 1);
    add_create(new_trip(&client->timed), CREATE, one, length);
    add(new_trip(&client->timed), DELETE, one);
}

static void prepare_seals(struct client *client, uint32_t length)
{
    struct store_id one = store_id_of(1, client->job, 1);
    add_create(new_trip(&client->timed), CREATE, one, length);
    add(new_trip(&client->timed), SEAL, one);
    add(new_trip(&client->timed), DELETE, one);
}

static void prepare_restores(struct client *client, uint32_t length)
{
    for (uint32_t index = 1; index <= 2; index++) {
        struct store_id id = store_id_of(1, client->job, index);
        seal(&client->before, id, length);
        add(new_trip(&client->timed), GET_WAIT, id);
        add(new_trip(&client->timed), RELEASE, id);
        add(new_trip(&client->after), DELETE, id);
    }
}

/* What makes room isn't sealed, so nothing is hashed while it is timed. */
static void prepare_spills(struct client *client, uint32_t length)
{
    client->is_once = true;
    for (uint32_t index = 1; index <= SPILLED; index++) {
        struct store_id id = store_id_of(1, client->job, index), other = store_id_of(2, client->job, index);
        seal(&client->before, id, length);
        add_create(new_trip(&client->timed), CREATE_WAIT, other, length);
        add(new_trip(&client->after), DELETE, other);
        add(new_trip(&client->after), DELETE, id);
    }
}

/* ---- a connection */

/* Says what came in place of the reply that is due, of which at least the head is there. */
__attribute__((noreturn)) static void fail_at(const struct client *client, const struct trip *trip, int index, size_t at, size_t got)
{
    const unsigned char *told = client->answer + at;
    const struct due *due = &trip->due[index];
    if (client->is_redis)
        fail("object%u: answered %.*s, and due is %.*s", client->job, (int)strcspn((const char *)told, "\r"), (const char *)told,
             (int)due->head_length - 2, (const char *)due->head);
    /* the number of a refusal is the byte after it */
    if (told[4] == REFUSED && got == at + HEAD_BYTES && recv(client->store.socket, client->answer + got, 1, 0) == 1)
        got++;
    const char *name = told[4] == REFUSED && got > at + HEAD_BYTES ? store_result_name(told[HEAD_BYTES]) : "no refusal";
    fail("job %u: command %02x, %d of %d sent at once, is answered %02x of length %u (%s), and due is %02x of length %u", client->job, due->kind,
         index + 1, trip->count, told[4], number_at(told), name, due->head[4], number_at(due->head));
}

static void send_all(const struct client *client, const unsigned char *bytes, size_t length)
{
    while (length > 0) {
        ssize_t sent = send(client->store.socket, bytes, length, MSG_NOSIGNAL);
        if (sent < 0 && errno != EINTR)
            fail("job %u: the connection is lost: %s", client->job, strerror(errno));
        if (sent > 0) {
            bytes += sent;
            length -= (size_t)sent;
        }
    }
}

static size_t receive_some(const struct client *client, size_t got, size_t most)
{
    ssize_t count;
    do
        count = recv(client->store.socket, client->answer + got, most - got, 0);
    while (count < 0 && errno == EINTR);
    if (count < 0 && errno == EAGAIN)
        fail("job %u: no answer in %d seconds", client->job, PATIENCE);
    if (count <= 0)
        fail("job %u: the connection is lost: %s", client->job, count ? strerror(errno) : "the server closed it");
    return (size_t)count;
}

/* An object's bytes: all, or the first, the last and one between that is another each time. */
static bool are_right(const struct client *client, const unsigned char *bytes, const struct due *due, bool is_whole)
{
    const unsigned char *right = content + due->offset;
    size_t last = due->length - 1, middle = (size_t)client->done * 4099 % due->length;
    if (is_whole)
        return memcmp(bytes, right, due->length) == 0;
    return bytes[0] == right[0] && bytes[last] == right[last] && bytes[middle] == right[middle];
}

/* Commands go out at once. Each reply's beginning is looked at as soon as five bytes are there, since a refusal is shorter. */
static void ask(const struct client *client, const struct trip *trip, bool is_whole)
{
    size_t at = 0, got = 0;
    int index = 0;
    send_all(client, trip->sent, trip->length);
    while (index < trip->count) {
        got += receive_some(client, got, trip->answer_length);
        while (index < trip->count && got >= at + HEAD_BYTES) {
            const struct due *due = &trip->due[index];
            size_t whole = due->head_length + due->length + due->rest;
            size_t there = got - at < due->head_length ? got - at : due->head_length;
            if (memcmp(client->answer + at, due->head, there) != 0)
                fail_at(client, trip, index, at, got);
            if (got < at + whole)
                break;
            if (due->is_content && !are_right(client, client->answer + at + due->head_length, due, is_whole))
                fail("job %u: other bytes than were put, in the %zu from %u on", client->job, due->length, due->offset);
            at += whole;
            index++;
        }
    }
}

static void ask_all(const struct client *client, const struct script *script, bool is_whole)
{
    for (int index = 0; index < script->count; index++)
        ask(client, &script->trips[index], is_whole);
}

static struct sockaddr_un address_of(const char *path)
{
    struct sockaddr_un address = {.sun_family = AF_UNIX};
    if (strlen(path) >= sizeof address.sun_path)
        fail("the path %s is too long", path);
    strcpy(address.sun_path, path);
    return address;
}

/* A session, whose calls block from here on. */
static void enter_store(struct client *client)
{
    int result = store_connect(&client->store, client->path, client->job, client->key);
    if (result)
        fail("job %u at %s: %s", client->job, client->path, store_result_name(result));
    /* the client's own calls don't block; these do, for so long at most */
    if (fcntl(client->store.socket, F_SETFL, 0))
        fail("job %u: the socket can't block: %s", client->job, strerror(errno));
}

static void enter_redis(struct client *client)
{
    struct sockaddr_un address = address_of(client->path);
    client->store.socket = socket(AF_UNIX, SOCK_STREAM, 0);
    if (client->store.socket < 0 || connect(client->store.socket, (struct sockaddr *)&address, sizeof address))
        fail("%s: %s", client->path, strerror(errno));
}

static void enter(struct client *client)
{
    struct timeval patience = {.tv_sec = PATIENCE};
    size_t most = HEAD_BYTES + 1;
    if (client->is_redis)
        enter_redis(client);
    else
        enter_store(client);
    setsockopt(client->store.socket, SOL_SOCKET, SO_RCVTIMEO, &patience, sizeof patience);
    setsockopt(client->store.socket, SOL_SOCKET, SO_SNDTIMEO, &patience, sizeof patience);
    for (int index = 0; index < client->timed.count; index++)
        if (client->timed.trips[index].answer_length > most)
            most = client->timed.trips[index].answer_length;
    /* what isn't timed has short answers */
    client->answer = memory(NULL, most + HEAD_BYTES + PLACED_BYTES);
}

static void work_on(struct client *client)
{
    double before = now();
    client->began = before;
    do {
        ask_all(client, &client->timed, false);
        client->ended = now();
        if (client->times)
            client->times[client->done] = client->ended - before;
        before = client->ended;
        client->done++;
    } while (!client->is_once && !is_over && client->ended < client->began + seconds && client->done < MOST_TIMES);
    is_over = true;
}

static void *work(void *argument)
{
    struct client *client = argument;
    enter(client);
    ask_all(client, &client->before, true);
    if (!client->is_once)
        ask_all(client, &client->timed, true);
    pthread_barrier_wait(&all_are_ready);
    work_on(client);
    ask_all(client, &client->after, true);
    if (client->is_redis)
        close(client->store.socket);
    else
        store_close(&client->store);
    return NULL;
}

/* ---- the floor */

/* Replies that go out in one write. */
struct replies {
    unsigned char heads[AT_ONCE][HEAD_BYTES + USAGE_BYTES];
    struct iovec parts[2 * AT_ONCE];
    size_t length;
    int count;
};

static void send_replies(int stream, struct replies *replies)
{
    struct msghdr message = {.msg_iov = replies->parts, .msg_iovlen = (size_t)(2 * replies->count)};
    if (replies->count > 0 && sendmsg(stream, &message, MSG_NOSIGNAL) != (ssize_t)replies->length)
        fail("floor: a reply was cut");
    replies->count = 0;
    replies->length = 0;
}

/* Makes a frame's reply, for which there is room; `length` is that of the object created last. */
static void answer(struct replies *replies, const unsigned char *frame, uint32_t *length)
{
    unsigned char *head = replies->heads[replies->count];
    const unsigned char *fields = frame + HEAD_BYTES + STORE_ID_BYTES;
    struct iovec *parts = &replies->parts[2 * replies->count++];
    memset(head, 0, sizeof *replies->heads);
    parts[0] = (struct iovec){head, HEAD_BYTES};
    parts[1] = (struct iovec){NULL, 0};
    head[4] = OK;
    if (frame[4] == CREATE) {
        *length = number_at(fields + 1);
        head[4] = PLACED;
        parts[0].iov_len += PLACED_BYTES;
    } else if (frame[4] == GET) {
        head[4] = GOT;
        put_number(head + HEAD_BYTES, *length);
        parts[0].iov_len += 4;
    } else if (frame[4] == READ) {
        head[4] = BYTES;
        parts[1] = (struct iovec){content + number_at(fields) % LONGEST_OBJECT, number_at(fields + 4) % (STORE_MOST_BYTES + 1)};
    } else if (frame[4] == USAGE) {
        head[4] = USED;
        parts[0].iov_len += USAGE_BYTES;
    }
    size_t whole = parts[0].iov_len + parts[1].iov_len;
    put_number(head, (uint32_t)(whole - 4));
    replies->length += whole;
}

static void *answer_all(void *argument)
{
    int stream = (int)(intptr_t)argument;
    unsigned char *frames = memory(NULL, LONGEST_FRAME);
    struct replies replies = {.count = 0};
    uint32_t length = 0;
    size_t got = 0;
    ssize_t count;
    while ((count = recv(stream, frames + got, LONGEST_FRAME - got, 0)) > 0) {
        size_t at = 0;
        got += (size_t)count;
        while (got >= at + HEAD_BYTES && got >= at + 4 + (size_t)number_at(frames + at)) {
            if (replies.count == AT_ONCE)
                send_replies(stream, &replies);
            answer(&replies, frames + at, &length);
            at += 4 + (size_t)number_at(frames + at);
        }
        send_replies(stream, &replies);
        memmove(frames, frames + at, got - at);
        got -= at;
    }
    free(frames);
    close(stream);
    return NULL;
}

static int serve_floor(const char *path)
{
    struct sockaddr_un address = address_of(path);
    pthread_t thread;
    int listener = socket(AF_UNIX, SOCK_STREAM, 0), stream;
    if (listener < 0 || bind(listener, (struct sockaddr *)&address, sizeof address) || listen(listener, 64))
        fail("floor: %s: %s", path, strerror(errno));
    puts("ready");
    fflush(stdout);
    while ((stream = accept(listener, NULL, NULL)) >= 0) {
        if (pthread_create(&thread, NULL, answer_all, (void *)(intptr_t)stream))
            fail("floor: no thread");
        pthread_detach(thread);
    }
    fail("floor: %s", strerror(errno));
}

/* ---- the command line */

/* What a connection asks for, or those beside the first one if its gets are timed. */
struct kind {
    const char *name;
    void (*prepare)(struct client *, uint32_t);
    bool is_beside;
};

static const struct kind kinds[] = {
    {"put", prepare_puts, false},
    {"get", prepare_gets, false},
    {"put-once", prepare_puts_once, false},
    {"get-once", prepare_gets_once, false},
    {"together", prepare_together, false},
    {"apart", prepare_apart, false},
    {"set-redis", prepare_redis_sets, false},
    {"get-redis", prepare_redis_gets, false},
    {"reads", prepare_gets, true},
    {"seals", prepare_seals, true},
    {"creates", prepare_creates, true},
    {"restores", prepare_restores, true},
    {"spills", prepare_spills, true},
    {"floods", prepare_together, true},
};

static const struct kind *kind_of(const char *name)
{
    for (size_t index = 0; index < sizeof kinds / sizeof *kinds; index++)
        if (strcmp(kinds[index].name, name) == 0)
            return &kinds[index];
    fail("nothing is named %s", name);
}

static struct client client_of(char **words)
{
    struct client client = {.path = words[0], .job = (uint32_t)strtoul(words[1], NULL, 10)};
    if (strlen(words[2]) != 2 * STORE_KEY_BYTES)
        fail("a key has 64 digits");
    for (int index = 0; index < STORE_KEY_BYTES; index++)
        if (sscanf(words[2] + 2 * index, "%2hhx", &client.key[index]) != 1)
            fail("a key has 64 digits");
    return client;
}

static int is_less(const void *left, const void *right)
{
    double one = *(const double *)left, other = *(const double *)right;
    return (one > other) - (one < other);
}

static void print_times(const struct client *client)
{
    qsort(client->times, (size_t)client->done, sizeof *client->times, is_less);
    long last = client->done - 1;
    printf(" %.4f %.4f %.4f", 1e3 * client->times[last / 2], 1e3 * client->times[last * 99 / 100], 1e3 * client->times[last]);
}

/* Of all connections together, or of the first one if its gets are timed. */
static void print_figures(const struct client *clients, int count)
{
    double began = clients->began, ended = clients->ended;
    long done = 0;
    for (int index = 0; index < (clients->times ? 1 : count); index++) {
        done += clients[index].done;
        began = clients[index].began < began ? clients[index].began : began;
        ended = clients[index].ended > ended ? clients[index].ended : ended;
    }
    printf("%ld %.6f", done, ended - began);
    if (clients->times)
        print_times(clients);
    putchar('\n');
}

static int load(const struct kind *kind, uint32_t length, char **words, int count)
{
    struct client *clients = memory(NULL, (size_t)count * sizeof *clients);
    pthread_t *threads = memory(NULL, (size_t)count * sizeof *threads);
    pthread_barrier_init(&all_are_ready, NULL, (unsigned)count);
    for (int index = 0; index < count; index++) {
        clients[index] = client_of(words + 3 * index);
        clients[index].number = (uint32_t)index + 1;
        bool is_timed = kind->is_beside && index == 0;
        if (is_timed)
            clients[index].times = memory(NULL, MOST_TIMES * sizeof(double));
        (is_timed ? prepare_gets : kind->prepare)(&clients[index], is_timed ? SMALL : length);
    }
    for (int index = 0; index < count; index++)
        if (pthread_create(&threads[index], NULL, work, &clients[index]))
            fail("no thread");
    for (int index = 0; index < count; index++)
        pthread_join(threads[index], NULL);
    print_figures(clients, count);
    return 0;
}

int main(int count, char **words)
{
    /* ends with what started it, however that ends */
    prctl(PR_SET_PDEATHSIG, SIGKILL);
    for (size_t at = 0; at < sizeof content; at++)
        content[at] = (unsigned char)(7 * at + 13 * (at >> 8) + 101 * (at >> 16));
    if (count == 3 && strcmp(words[1], "floor") == 0)
        return serve_floor(words[2]);
    if (count < 7 || (count - 4) % 3 != 0)
        fail("load WHAT BYTES SECONDS PATH JOB KEY .., or load floor PATH");
    unsigned long length = strtoul(words[2], NULL, 10);
    seconds = strtod(words[3], NULL);
    if (length < 1 || length > LONGEST_OBJECT || !(seconds >= 0 && seconds <= MOST_SECONDS))
        fail("1 to %d bytes, and at most %d seconds", LONGEST_OBJECT, MOST_SECONDS);
    return load(kind_of(words[1]), (uint32_t)length, words + 4, (count - 4) / 3);
}
