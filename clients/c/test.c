/* Sessions of jobs 1, 2 and 3 at the sockets of two nodes, node 0 first: what was put comes back, and refusals are told by their names.
 *
 *     test PATH PATH
 *
 * Job N's key is 32 bytes of N. Job 1 has a window of 32 MiB, job 2 one of 64 bytes, job 3 one of 144 and a device.
 */
#define _GNU_SOURCE
#include "store_client.h"

#include <stdio.h>
#include <stdlib.h>
#include <string.h>
#include <sys/wait.h>
#include <time.h>
#include <unistd.h>

#define EXPECT(name, call)                                                                                                     \
    do {                                                                                                                       \
        const char *got = store_result_name(call);                                                                             \
        if (strcmp(got, name) != 0) {                                                                                          \
            fprintf(stderr, "line %d: %s, and %s was due\n", __LINE__, got, name);                                             \
            exit(1);                                                                                                           \
        }                                                                                                                      \
    } while (0)
#define HOLDS(condition)                                                                                                       \
    do {                                                                                                                       \
        if (!(condition)) {                                                                                                    \
            fprintf(stderr, "line %d: not so: %s\n", __LINE__, #condition);                                                    \
            exit(1);                                                                                                           \
        }                                                                                                                      \
    } while (0)

/* milliseconds for each call, on a machine that does much else */
enum { PATIENCE = 60000 };

static unsigned char data[STORE_LARGEST], back[STORE_LARGEST];

static struct store entered(const char *path, uint32_t job)
{
    struct store store;
    unsigned char key[STORE_KEY_BYTES];
    memset(key, (int)job, sizeof key);
    EXPECT("Ok", store_connect_within(&store, path, job, key, PATIENCE));
    return store;
}

static void expect_bytes(struct store *store, struct store_id id, size_t due)
{
    void *bytes;
    size_t length;
    EXPECT("Ok", store_get(store, id, &bytes, &length));
    HOLDS(length == due && memcmp(bytes, data, length) == 0);
    free(bytes);
}

static size_t copies_of(struct store *store)
{
    struct store_listing listing;
    EXPECT("Ok", store_list(store, &listing));
    free(listing.items);
    return listing.own;
}

static void connecting(const char *path)
{
    struct store store;
    unsigned char key[STORE_KEY_BYTES] = {0};
    EXPECT("NotAdmitted", store_connect(&store, path, 1, key));
    store_close(&store);
    EXPECT("the connection is lost", store_connect(&store, "/nowhere", 1, key));
    EXPECT("the connection is lost", store_leave(&store));
    store_close(&store);
    memset(back, 'a', 200);
    back[200] = '\0';
    EXPECT("the connection is lost", store_connect(&store, (const char *)back, 1, key));
    store_close(&store);
}

static void put_and_get(struct store *store)
{
    void *bytes;
    size_t length;
    struct store_id one = store_id_of(1, 1, 1);
    EXPECT("Ok", store_put(store, one, data, 70000));
    EXPECT("Exists", store_put(store, one, data, 1));
    expect_bytes(store, one, 70000);
    EXPECT("Ok", store_delete(store, one));
    EXPECT("Absent", store_get(store, one, &bytes, &length));
    EXPECT("BadSize", store_put(store, one, data, 0));
    EXPECT("BadSize", store_put(store, one, data, STORE_LARGEST + 1));
    EXPECT("BadSize", store_put(store, one, data, SIZE_MAX));
    HOLDS(copies_of(store) == 0);
}

/* Each way of a put, by the lengths at which it is another one. */
static void lengths(struct store *store)
{
    static const uint32_t tried[] = {1, 65536, 65537, (1 << 20) - 1, 1 << 20, (1 << 20) + 1, STORE_LARGEST};
    struct store_id last = {{0}}, named = store_id_of(1, 1, 2);
    for (size_t index = 0; index < sizeof tried / sizeof *tried; index++) {
        struct store_id id;
        EXPECT("Ok", store_put_new(store, &id, data, tried[index]));
        HOLDS(memcmp(id.bytes, last.bytes, sizeof id.bytes) != 0);
        expect_bytes(store, id, tried[index]);
        memset(back, 0, tried[index]);
        EXPECT("Ok", store_get_into(store, id, back, tried[index]));
        HOLDS(memcmp(back, data, tried[index]) == 0);
        EXPECT("Ok", store_delete(store, id));
        EXPECT("Ok", store_put(store, named, data, tried[index]));
        expect_bytes(store, named, tried[index]);
        EXPECT("Ok", store_delete(store, named));
        last = id;
    }
    EXPECT("BadSize", store_put_new(store, &last, data, 0));
    EXPECT("BadSize", store_put_new(store, &last, data, STORE_LARGEST + 1));
    EXPECT("BadSize", store_put_new(store, &last, data, SIZE_MAX));
    HOLDS(copies_of(store) == 0);
}

/* A put that is refused leaves nothing. */
static void refused_puts(const char *path)
{
    struct store store = entered(path, 2);
    struct store_id one, other;
    uint32_t length;
    EXPECT("BadSize", store_put_new(&store, &one, data, 65));
    EXPECT("Ok", store_put_new(&store, &one, data, 64));
    EXPECT("Ok", store_hold(&store, one, &length));
    EXPECT("Full", store_put_new(&store, &other, data, 1));
    EXPECT("Full", store_put(&store, store_id_of(1, 2, 1), data, 1));
    HOLDS(copies_of(&store) == 1);
    EXPECT("Absent", store_delete(&store, other));
    EXPECT("Ok", store_release(&store, one));
    EXPECT("Ok", store_delete(&store, one));
    store_close(&store);
}

/* A put waits until there is room, and a get until the object is back from the device. */
static void spilled(const char *path)
{
    struct store store = entered(path, 3);
    struct store_id ids[5];
    for (size_t index = 0; index < 5; index++)
        EXPECT("Ok", index % 2 ? store_put(&store, ids[index] = store_new_id(&store), data, 100)
                               : store_put_new(&store, &ids[index], data, 100));
    for (size_t index = 0; index < 5; index++)
        expect_bytes(&store, ids[index], 100);
    for (size_t index = 0; index < 5; index++) {
        memset(back, 0, 100);
        EXPECT("Ok", store_get_into(&store, ids[index], back, 100));
        HOLDS(memcmp(back, data, 100) == 0);
    }
    EXPECT("Ok", store_end_task(&store, ids[0].bytes));
    store_close(&store);
}

/* What a get into the caller's memory leaves as it was: other holds of the session, and an object of another length. */
static void get_into(struct store *store)
{
    struct store_id one = store_id_of(3, 1, 1);
    uint32_t length;
    EXPECT("Absent", store_get_into(store, one, back, 20));
    EXPECT("Ok", store_put(store, one, data, 20));
    EXPECT("the object has another length", store_get_into(store, one, back, 19));
    EXPECT("the object has another length", store_get_into(store, one, back, 21));
    EXPECT("the object has another length", store_get_into(store, one, back, (1 << 20) + 1));
    EXPECT("the object has another length", store_get_into(store, one, back, 0));
    EXPECT("the object has another length", store_get_into(store, one, back, SIZE_MAX));
    EXPECT("NotHeld", store_release(store, one));
    EXPECT("Ok", store_hold(store, one, &length));
    EXPECT("the object has another length", store_get_into(store, one, back, 21));
    EXPECT("Ok", store_get_into(store, one, back, 20));
    EXPECT("Ok", store_delete(store, one));
    /* it is still held, though nobody gets it any more */
    EXPECT("Absent", store_get_into(store, one, back, 20));
    EXPECT("Ok", store_read(store, one, 0, back, 20));
    EXPECT("Ok", store_leave(store));
    EXPECT("Absent", store_read(store, one, 0, back, 20));
    HOLDS(store->holds == 0 && copies_of(store) == 0);
}

static void step_by_step(struct store *store)
{
    struct store_id one = store_id_of(2, 1, 1);
    struct store_usage usage;
    struct store_placed placed = {1, 1};
    unsigned char bytes[4];
    uint32_t length;
    EXPECT("Pending", store_hold(store, one, &length));
    EXPECT("Exists", store_create(store, one, 20));
    /* a put takes such a fetch away */
    EXPECT("Ok", store_put(store, one, "Hello", 5));
    EXPECT("Ok", store_delete(store, one));
    EXPECT("Pending", store_hold(store, one, &length));
    EXPECT("Absent", store_hold(store, one, &length));
    EXPECT("Absent", store_seal(store, one));
    EXPECT("Ok", store_create_as(store, one, STORE_PRIMARY, 20, &placed));
    HOLDS(placed.offset == 0 && placed.length == 32);
    EXPECT("NotSealed", store_hold(store, one, &length));
    EXPECT("Ok", store_write(store, one, 0, "Hello", 5));
    EXPECT("OutOfBounds", store_write(store, one, 16, "Hello", 5));
    EXPECT("BadSize", store_write(store, one, 0, data, STORE_MOST_BYTES + 1));
    EXPECT("Ok", store_seal(store, one));
    EXPECT("AlreadySealed", store_write(store, one, 0, "Hello", 5));
    EXPECT("NotHeld", store_read(store, one, 0, bytes, 4));
    EXPECT("Ok", store_hold(store, one, &length));
    HOLDS(length == 20);
    EXPECT("Ok", store_read(store, one, 1, bytes, 4));
    HOLDS(memcmp(bytes, "ello", 4) == 0);
    EXPECT("BadSize", store_read(store, one, 0, back, STORE_LARGEST));
    EXPECT("Ok", store_usage(store, &usage));
    HOLDS(usage.window == 33554432 && usage.window_used == 32 && usage.copies == 1 && usage.works == 0);
    EXPECT("Ok", store_release(store, one));
    EXPECT("NotHeld", store_release(store, one));
}

static void between_jobs(struct store *store, const char *path)
{
    struct store_id one = store_id_of(2, 1, 1);
    struct store other = entered(path, 2);
    unsigned char bytes[20];
    void *all;
    size_t length;
    EXPECT("NotGranted", store_peek(&other, one, 0, bytes, 5));
    EXPECT("NotGranted", store_get(&other, one, &all, &length));
    EXPECT("BadId", store_grant(store, one, 1));
    EXPECT("Ok", store_grant(store, one, 2));
    EXPECT("Ok", store_peek(&other, one, 0, bytes, 5));
    HOLDS(memcmp(bytes, "Hello", 5) == 0);
    EXPECT("Ok", store_get(&other, one, &all, &length));
    HOLDS(length == 20 && memcmp(all, "Hello", 5) == 0);
    free(all);
    EXPECT("Ok", store_get_into(&other, one, bytes, sizeof bytes));
    HOLDS(memcmp(bytes, "Hello", 6) == 0);
    EXPECT("the object has another length", store_get_into(&other, one, bytes, 5));
    EXPECT("Granted", store_delete(store, one));
    EXPECT("Ok", store_withdraw(store, one, 2));
    EXPECT("NotGranted", store_peek(&other, one, 0, bytes, 5));
    EXPECT("NotGranted", store_wait(&other, one, 50, &all, &length));
    store_close(&other);
    EXPECT("Ok", store_end_task(store, one.bytes));
    EXPECT("Gone", store_create(store, one, 20));
}

static void rest(long milliseconds)
{
    struct timespec pause = {.tv_sec = milliseconds / 1000, .tv_nsec = milliseconds % 1000 * 1000000};
    nanosleep(&pause, NULL);
}

static long milliseconds_since(const struct timespec *began)
{
    struct timespec time;
    clock_gettime(CLOCK_MONOTONIC, &time);
    return (time.tv_sec - began->tv_sec) * 1000 + (time.tv_nsec - began->tv_nsec) / 1000000;
}

/* A wait that nothing ends: it lasts its time, leaves no fetch, and the session goes on. */
static void waiting_in_vain(struct store *store, struct store_id id)
{
    struct timespec began;
    void *bytes;
    size_t length;
    clock_gettime(CLOCK_MONOTONIC, &began);
    EXPECT("Absent", store_wait(store, id, 300, &bytes, &length));
    HOLDS(milliseconds_since(&began) >= 300);
    EXPECT("Absent", store_wait(store, id, 0, &bytes, &length));
    HOLDS(copies_of(store) == 0);
}

/* Somebody puts it meanwhile, at this node or another one. */
static void waiting(struct store *store, const char *producers)
{
    struct store_id id = store_new_id(store);
    void *bytes;
    size_t length;
    int status;
    waiting_in_vain(store, id);
    pid_t producer = fork();
    HOLDS(producer >= 0);
    if (producer == 0) {
        struct store own = entered(producers, 1);
        rest(300);
        EXPECT("Ok", store_put(&own, id, data, 3000000));
        store_close(&own);
        _exit(0);
    }
    EXPECT("Ok", store_wait(store, id, PATIENCE / 2, &bytes, &length));
    HOLDS(length == 3000000 && memcmp(bytes, data, length) == 0);
    free(bytes);
    HOLDS(waitpid(producer, &status, 0) == producer && status == 0);
    EXPECT("NotHeld", store_release(store, id));
    EXPECT("Ok", store_end_task(store, id.bytes));
    HOLDS(copies_of(store) == 0);
}

/* From another node, from which it comes in pieces. */
static void transferred(struct store *store, const char *path)
{
    struct store producer = entered(path, 1);
    struct store_id one, other;
    EXPECT("Ok", store_put_new(&producer, &one, data, STORE_LARGEST));
    EXPECT("Ok", store_put_new(&producer, &other, data, 100));
    expect_bytes(store, one, STORE_LARGEST);
    EXPECT("Ok", store_get_into(store, other, back, 100));
    HOLDS(memcmp(back, data, 100) == 0);
    EXPECT("Ok", store_delete(store, one));
    EXPECT("Ok", store_delete(store, other));
    store_close(&producer);
}

int main(int count, char **words)
{
    HOLDS(count == 3);
    for (size_t at = 0; at < sizeof data; at++)
        data[at] = (unsigned char)(at * 7 + at / 251);
    struct store store = entered(words[1], 1);
    connecting(words[1]);
    put_and_get(&store);
    lengths(&store);
    refused_puts(words[1]);
    spilled(words[1]);
    get_into(&store);
    step_by_step(&store);
    between_jobs(&store, words[1]);
    store_close(&store);
    struct store consumer = entered(words[1], 1);
    waiting(&consumer, words[1]);
    store_close(&consumer);
    consumer = entered(words[1], 1);
    waiting(&consumer, words[2]);
    transferred(&consumer, words[2]);
    store_close(&consumer);
    return 0;
}
