/* Calls of one session, one after the other, for tests that play the server:
 *
 *     probe PATH LIMIT CALL..
 *
 * Job 1 connects, with a key of 32 times 1 and so many milliseconds for each call, and makes the calls. For connecting and for each call it
 * prints a line: its name, the milliseconds that it took, how often it sent something, the most bytes of memory that it took at once, and
 * the name of its result. If the session is over it tries that: its socket is closed, and the next call is lost and sends nothing.
 */
#define _GNU_SOURCE
#include <errno.h>
#include <signal.h>
#include <stdio.h>
#include <stdlib.h>
#include <string.h>
#include <sys/socket.h>
#include <sys/time.h>
#include <time.h>
#include <unistd.h>

static int sends;
static size_t most_memory;
static int is_without_memory;

static void *counted_malloc(size_t size)
{
    if (size > most_memory)
        most_memory = size;
    return is_without_memory ? NULL : malloc(size);
}

static ssize_t counted_sendmsg(int socket, const struct msghdr *message, int flags)
{
    sends++;
    return sendmsg(socket, message, flags);
}

/* the client itself, with these in the place of what they count */
#define malloc counted_malloc
#define sendmsg counted_sendmsg
#include "store_client.c"
#undef malloc
#undef sendmsg

/* bytes; milliseconds; microseconds; and what is no result of the client's */
enum { LONG_READ = 1 << 20, LONG_PUT = 3 * STORE_MOST_BYTES, NAP = 700, WAIT = 200, SIGNAL_EVERY = 3000, OTHER_BYTES = 100 };

static struct store_id one;
static unsigned char room[LONG_READ];

static int call_seal(struct store *store)
{
    return store_seal(store, one);
}

/* One of several steps, whose time is over when it comes to it. */
static int call_seal_late(struct store *store)
{
    store->end = now();
    return tell(store, SEAL, one);
}

static int call_delete(struct store *store)
{
    return store_delete(store, one);
}

static int got(int result, void *bytes, size_t length)
{
    if (result)
        return result;
    int is_right = length == 5 && memcmp(bytes, "Hello", 5) == 0;
    free(bytes);
    return is_right ? STORE_OK : OTHER_BYTES;
}

static int call_get(struct store *store)
{
    void *bytes = NULL;
    size_t length = 0;
    int result = store_get(store, one, &bytes, &length);
    return got(result, bytes, length);
}

static int call_wait(struct store *store)
{
    void *bytes = NULL;
    size_t length = 0;
    int result = store_wait(store, one, WAIT, &bytes, &length);
    return got(result, bytes, length);
}

static int call_get_into(struct store *store)
{
    int result = store_get_into(store, one, room, 5);
    return result || memcmp(room, "Hello", 5) == 0 ? result : OTHER_BYTES;
}

static int call_hold(struct store *store)
{
    uint32_t length;
    return store_hold(store, one, &length);
}

static int call_read(struct store *store)
{
    return store_read(store, one, 0, room, 4);
}

static int call_read_long(struct store *store)
{
    return store_read(store, one, 0, room, LONG_READ);
}

static int call_peek(struct store *store)
{
    return store_peek(store, one, 0, room, 4);
}

static int call_list(struct store *store)
{
    struct store_listing listing;
    int result = store_list(store, &listing);
    if (!result)
        free(listing.items);
    return result;
}

static int call_usage(struct store *store)
{
    struct store_usage usage;
    return store_usage(store, &usage);
}

static int call_create(struct store *store)
{
    return store_create(store, one, 5);
}

static int call_put(struct store *store)
{
    return store_put(store, one, "Hello", 5);
}

static int call_put_new(struct store *store)
{
    struct store_id id;
    return store_put_new(store, &id, "Hello", 5);
}

static int call_put_long(struct store *store)
{
    return store_put(store, one, room, LONG_PUT);
}

/* ---- no calls of the client */

static int nap(struct store *store)
{
    (void)store;
    sleep_until(now() + NAP * 1000);
    return STORE_OK;
}

static void wake(int number)
{
    (void)number;
}

/* From now on a signal comes again and again, which no system call is restarted after. */
static int send_signals(struct store *store)
{
    struct sigaction action = {.sa_handler = wake};
    struct itimerval every = {{0, SIGNAL_EVERY}, {0, SIGNAL_EVERY}};
    (void)store;
    sigaction(SIGALRM, &action, NULL);
    return setitimer(ITIMER_REAL, &every, NULL);
}

static int take_memory_away(struct store *store)
{
    (void)store;
    is_without_memory = 1;
    return STORE_OK;
}

static const struct {
    const char *name;
    int (*make)(struct store *);
} calls[] = {
    {"seal", call_seal}, {"seal_late", call_seal_late}, {"delete", call_delete}, {"get", call_get}, {"wait", call_wait},
    {"get_into", call_get_into}, {"hold", call_hold}, {"read", call_read}, {"read_long", call_read_long},
    {"peek", call_peek}, {"list", call_list}, {"usage", call_usage}, {"create", call_create}, {"put", call_put},
    {"put_new", call_put_new}, {"put_long", call_put_long}, {"nap", nap}, {"signals", send_signals},
    {"without_memory", take_memory_away},
};

static void fail(const char *what)
{
    fprintf(stderr, "probe: %s\n", what);
    exit(1);
}

static void check_if_it_is_over(struct store *store, int result)
{
    int sent = sends;
    if (result != STORE_LOST && result != STORE_PROTOCOL && result != STORE_SILENT && result != STORE_MALFORMED)
        return;
    if (store->socket != -1)
        fail("the session is over, and its socket is open");
    errno = 0;
    if (store_leave(store) != STORE_LOST || errno != ENOTCONN || sends != sent)
        fail("the session is over, and a call isn't lost at once");
}

/* Begins to count anew. */
static int64_t mark(void)
{
    sends = 0;
    most_memory = 0;
    return now();
}

static void print_call(const char *name, int64_t began, int result)
{
    int64_t took = (now() - began) / 1000;
    const char *told = result == OTHER_BYTES ? "other bytes" : store_result_name(result);
    printf("%s %lld %d %zu %s\n", name, (long long)took, sends, most_memory, told);
}

static int make(struct store *store, const char *name)
{
    for (size_t index = 0; index < sizeof calls / sizeof *calls; index++)
        if (strcmp(calls[index].name, name) == 0)
            return calls[index].make(store);
    fail("there is no such call");
    return STORE_LOST;
}

int main(int count, char **words)
{
    struct store store;
    unsigned char key[STORE_KEY_BYTES];
    if (count < 3)
        fail("probe PATH LIMIT CALL..");
    memset(key, 1, sizeof key);
    one = store_id_of(1, 1, 1);
    int64_t began = mark();
    int result = store_connect_within(&store, words[1], 1, key, (uint32_t)strtoul(words[2], NULL, 10));
    print_call("connect", began, result);
    check_if_it_is_over(&store, result);
    for (int index = 3; index < count; index++) {
        began = mark();
        result = make(&store, words[index]);
        print_call(words[index], began, result);
        check_if_it_is_over(&store, result);
    }
    store_close(&store);
    return 0;
}
