/* A consumer puts an object and gets it back, and then waits for one that a producer, another process, puts half a second later. Each call has
 * a deadline. STORE_SOCKET, STORE_JOB and STORE_KEY (64 hexadecimal digits) are in the environment.
 */
#include "store_client.h"

#include <errno.h>
#include <stdio.h>
#include <stdlib.h>
#include <string.h>
#include <sys/wait.h>
#include <time.h>
#include <unistd.h>

/* milliseconds: for a call as a whole, for what somebody will put, and for what nobody puts */
enum { CALL = 60000, WAIT = 30000, SHORT_WAIT = 200 };

/* Ends the program unless the result is STORE_OK. */
static void check(const char *call, int result)
{
    if (result == STORE_OK)
        return;
    fprintf(stderr, "%s: %d %s%s%s\n", call, result, store_result_name(result), result == STORE_LOST && errno ? ": " : "",
            result == STORE_LOST && errno ? strerror(errno) : "");
    exit(1);
}

static const char *setting(const char *name)
{
    const char *value = getenv(name);
    if (!value) {
        fprintf(stderr, "%s isn't in the environment\n", name);
        exit(1);
    }
    return value;
}

static struct store entered(void)
{
    struct store store;
    unsigned char key[STORE_KEY_BYTES];
    const char *digits = setting("STORE_KEY");
    if (strlen(digits) != 2 * sizeof key) {
        fprintf(stderr, "a key has 64 digits\n");
        exit(1);
    }
    for (size_t index = 0; index < sizeof key; index++)
        if (sscanf(digits + 2 * index, "%2hhx", &key[index]) != 1)
            exit(1);
    uint32_t job = (uint32_t)strtoul(setting("STORE_JOB"), NULL, 10);
    check("connect", store_connect_within(&store, setting("STORE_SOCKET"), job, key, CALL));
    return store;
}

static void put_and_get(struct store *store)
{
    struct store_id id;
    void *bytes;
    size_t length;
    check("put", store_put_new(store, &id, "Hello", 5));
    check("get", store_get(store, id, &bytes, &length));
    printf("%.*s\n", (int)length, (const char *)bytes);
    free(bytes);
    check("delete", store_delete(store, id));
}

/* In a process of its own, which has a session of its own. */
static void produce(struct store_id id)
{
    struct timespec half = {.tv_nsec = 500000000};
    struct store store = entered();
    nanosleep(&half, NULL);
    check("put", store_put(&store, id, "from afar", 9));
    store_close(&store);
}

static void wait_for_a_producer(struct store *store)
{
    struct store_id id = store_new_id(store);
    void *bytes;
    size_t length;
    int result = store_wait(store, id, SHORT_WAIT, &bytes, &length);
    printf("%d %s\n", result, store_result_name(result));
    fflush(stdout);
    pid_t producer = fork();
    if (producer == 0) {
        produce(id);
        _exit(0);
    }
    check("wait", store_wait(store, id, WAIT, &bytes, &length));
    printf("%.*s\n", (int)length, (const char *)bytes);
    free(bytes);
    waitpid(producer, NULL, 0);
    check("delete", store_delete(store, id));
}

int main(void)
{
    struct store store = entered();
    put_and_get(&store);
    wait_for_a_producer(&store);
    store_close(&store);
    return 0;
}
