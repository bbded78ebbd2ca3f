/* A driver of the client in C (see ../../README.md): driver SOCKET JOB KEY. It knows no objects in parts. */
#include "store_client.h"

#include <inttypes.h>
#include <stdbool.h>
#include <stdio.h>
#include <stdlib.h>
#include <string.h>

/* milliseconds that a server may be silent: the kit ends what is silent */
enum { PATIENCE = 100000, MOST_WORDS = 4 };

/* What an operation is, of so many words after its own. It prints what came if that is STORE_OK. */
struct operation {
    const char *name;
    int count;
    int (*run)(struct store *, char **);
};

_Noreturn static void fail(const char *what, const char *word)
{
    fprintf(stderr, "driver: %s: %s\n", what, word);
    exit(2);
}

/* ---- words */

static uint64_t number_of(const char *text)
{
    char *end;
    uint64_t number = strtoull(text, &end, 10);
    if (end == text || *end != '\0')
        fail("this is no number", text);
    return number;
}

static uint32_t small_number_of(const char *text)
{
    uint64_t number = number_of(text);
    if (number > UINT32_MAX)
        fail("this number is too large", text);
    return (uint32_t)number;
}

static unsigned char byte_of(const char *digits)
{
    unsigned byte;
    if (sscanf(digits, "%2x", &byte) != 1)
        fail("these are no digits", digits);
    return (unsigned char)byte;
}

/* So many bytes of two digits each. */
static void read_digits(const char *digits, unsigned char *bytes, size_t count)
{
    if (strlen(digits) != 2 * count)
        fail("these are no digits", digits);
    for (size_t index = 0; index < count; index++)
        bytes[index] = byte_of(digits + 2 * index);
}

/* Bytes that the caller frees, of which none are "-". */
static unsigned char *bytes_of(const char *digits, size_t *count)
{
    *count = strcmp(digits, "-") == 0 ? 0 : strlen(digits) / 2;
    unsigned char *bytes = malloc(*count + 1);
    if (!bytes)
        fail("there is no memory", "");
    if (*count > 0)
        read_digits(digits, bytes, *count);
    return bytes;
}

static struct store_id id_of(const struct store *store, const char *text)
{
    struct store_id id;
    uint64_t task;
    uint32_t job = store->job, index;
    if (sscanf(text, "t%" SCNu64 ".%" SCNu32, &task, &index) == 2)
        return store_id_of(task, job, index);
    if (sscanf(text, "%" SCNu32 "/t%" SCNu64 ".%" SCNu32, &job, &task, &index) == 3)
        return store_id_of(task, job, index);
    read_digits(text, id.bytes, sizeof id.bytes);
    return id;
}

/* A task is read as the beginning of an id. */
static struct store_id task_of(const char *text)
{
    struct store_id id = {{0}};
    if (*text == 't')
        return store_id_of(number_of(text + 1), 0, 0);
    read_digits(text, id.bytes, STORE_TASK_BYTES);
    return id;
}

static void print_bytes(const unsigned char *bytes, size_t count)
{
    for (size_t index = 0; index < count; index++)
        printf("%02x", bytes[index]);
}

static uint64_t number_at(const unsigned char *at, int bytes)
{
    uint64_t number = 0;
    for (int index = 0; index < bytes; index++)
        number = number << 8 | at[index];
    return number;
}

static void print_id(const struct store *store, const struct store_id *id)
{
    static const unsigned char zeros[STORE_TASK_BYTES - 8];
    uint64_t job = number_at(id->bytes + STORE_TASK_BYTES, 4);
    if (memcmp(id->bytes, zeros, sizeof zeros) != 0) {
        print_bytes(id->bytes, sizeof id->bytes);
        return;
    }
    if (job != store->job)
        printf("%" PRIu64 "/", job);
    printf("t%" PRIu64 ".%" PRIu64, number_at(id->bytes + sizeof zeros, 8), number_at(id->bytes + STORE_TASK_BYTES + 4, 4));
}

/* ---- operations */

static int done(int result)
{
    if (!result)
        puts("ok");
    return result;
}

static int got_bytes(int result, const unsigned char *bytes, size_t count)
{
    if (!result) {
        printf("bytes %s", count > 0 ? "" : "-");
        print_bytes(bytes, count);
        putchar('\n');
    }
    return result;
}

static int placed(int result, const struct store_placed *placed)
{
    if (!result)
        printf("placed %" PRIu32 " %" PRIu32 "\n", placed->offset, placed->length);
    return result;
}

static int create(struct store *store, char **words)
{
    struct store_placed at;
    return placed(store_create_as(store, id_of(store, words[0]), STORE_PRIMARY, small_number_of(words[1]), &at), &at);
}

static int copy(struct store *store, char **words)
{
    struct store_placed at;
    return placed(store_create_as(store, id_of(store, words[0]), STORE_SECONDARY, small_number_of(words[1]), &at), &at);
}

static int create_wait(struct store *store, char **words)
{
    struct store_placed at;
    return placed(store_create_wait(store, id_of(store, words[0]), STORE_PRIMARY, small_number_of(words[1]), &at), &at);
}

static int copy_wait(struct store *store, char **words)
{
    struct store_placed at;
    return placed(store_create_wait(store, id_of(store, words[0]), STORE_SECONDARY, small_number_of(words[1]), &at), &at);
}

static int write_piece(struct store *store, char **words)
{
    size_t count;
    unsigned char *bytes = bytes_of(words[2], &count);
    int result = store_write(store, id_of(store, words[0]), small_number_of(words[1]), bytes, (uint32_t)count);
    free(bytes);
    return done(result);
}

static int seal(struct store *store, char **words)
{
    return done(store_seal(store, id_of(store, words[0])));
}

static int hold_by(int (*call)(struct store *, struct store_id, uint32_t *), struct store *store, char **words)
{
    uint32_t length;
    int result = call(store, id_of(store, words[0]), &length);
    if (!result)
        printf("got %" PRIu32 "\n", length);
    return result;
}

static int get(struct store *store, char **words)
{
    return hold_by(store_hold, store, words);
}

static int get_wait(struct store *store, char **words)
{
    return hold_by(store_hold_wait, store, words);
}

static int read_by(
    int (*call)(struct store *, struct store_id, uint32_t, void *, uint32_t), struct store *store, char **words)
{
    uint32_t count = small_number_of(words[2]);
    unsigned char *bytes = malloc((size_t)count + 1);
    if (!bytes)
        fail("there is no memory for", words[2]);
    int result = got_bytes(call(store, id_of(store, words[0]), small_number_of(words[1]), bytes, count), bytes, count);
    free(bytes);
    return result;
}

static int read_piece(struct store *store, char **words)
{
    return read_by(store_read, store, words);
}

static int peek(struct store *store, char **words)
{
    return read_by(store_peek, store, words);
}

static int release(struct store *store, char **words)
{
    return done(store_release(store, id_of(store, words[0])));
}

static int leave(struct store *store, char **words)
{
    (void)words;
    return done(store_leave(store));
}

static int delete(struct store *store, char **words)
{
    return done(store_delete(store, id_of(store, words[0])));
}

static int unpin(struct store *store, char **words)
{
    return done(store_unpin(store, id_of(store, words[0]), task_of(words[1]).bytes));
}

static int borrow(struct store *store, char **words)
{
    return done(store_borrow(store, id_of(store, words[0]), task_of(words[1]).bytes));
}

static int give_up(struct store *store, char **words)
{
    return done(store_give_up(store, id_of(store, words[0]), task_of(words[1]).bytes));
}

static int end_task(struct store *store, char **words)
{
    return done(store_end_task(store, task_of(words[0]).bytes));
}

static int grant(struct store *store, char **words)
{
    return done(store_grant(store, id_of(store, words[0]), small_number_of(words[1])));
}

static int withdraw(struct store *store, char **words)
{
    return done(store_withdraw(store, id_of(store, words[0]), small_number_of(words[1])));
}

static void print_item(const struct store *store, const struct store_item *item)
{
    static const char *const states[] = {"created", "sealed", "restoring", "fetching", "away"};
    putchar(' ');
    print_id(store, &item->id);
    if (item->depth > 0)
        printf(":granted:%" PRIu32 ":%u", item->length, item->depth);
    else
        printf(":%s:%s:%" PRIu32, states[item->state], item->kind == STORE_PRIMARY ? "primary" : "secondary", item->length);
}

static int list(struct store *store, char **words)
{
    struct store_listing listing;
    (void)words;
    int result = store_list(store, &listing);
    if (result)
        return result;
    printf("list");
    for (size_t index = 0; index < listing.own + listing.granted; index++)
        print_item(store, &listing.items[index]);
    putchar('\n');
    free(listing.items);
    return result;
}

static int usage(struct store *store, char **words)
{
    struct store_usage used;
    (void)words;
    int result = store_usage(store, &used);
    if (!result)
        printf("usage %" PRIu64 " %" PRIu64 " %" PRIu64 " %" PRIu64 " %" PRIu64 " %" PRIu64 "\n", used.window, used.window_used, used.device,
               used.device_used, used.copies, used.works);
    return result;
}

static int put(struct store *store, char **words)
{
    size_t count;
    unsigned char *bytes = bytes_of(words[1], &count);
    int result = store_put(store, id_of(store, words[0]), bytes, count);
    free(bytes);
    return done(result);
}

static int taken(int result, void *bytes, size_t length)
{
    if (!result) {
        got_bytes(result, bytes, length);
        free(bytes);
    }
    return result;
}

static int take(struct store *store, char **words)
{
    void *bytes = NULL;
    size_t length = 0;
    int result = store_get(store, id_of(store, words[0]), &bytes, &length);
    return taken(result, bytes, length);
}

static int wait_for(struct store *store, char **words)
{
    void *bytes = NULL;
    size_t length = 0;
    int result = store_wait(store, id_of(store, words[0]), 1000 * small_number_of(words[1]), &bytes, &length);
    return taken(result, bytes, length);
}

static const struct operation operations[] = {
    {"create", 2, create}, {"copy", 2, copy}, {"createwait", 2, create_wait}, {"copywait", 2, copy_wait}, {"write", 3, write_piece},
    {"seal", 1, seal}, {"get", 1, get}, {"getwait", 1, get_wait}, {"read", 3, read_piece}, {"release", 1, release}, {"unpin", 2, unpin},
    {"borrow", 2, borrow}, {"giveup", 2, give_up}, {"delete", 1, delete}, {"endtask", 1, end_task}, {"grant", 2, grant},
    {"withdraw", 2, withdraw}, {"peek", 3, peek}, {"list", 0, list}, {"usage", 0, usage}, {"leave", 0, leave}, {"put", 2, put},
    {"take", 1, take}, {"wait", 2, wait_for},
};

/* ---- the driver */

static const struct operation *operation_of(const char *name)
{
    for (size_t index = 0; index < sizeof operations / sizeof *operations; index++)
        if (strcmp(operations[index].name, name) == 0)
            return &operations[index];
    fail("there is no operation", name);
}

/* What isn't printed yet of what came. */
static void print_failure(int result)
{
    if (result > STORE_OK)
        printf("refused %d %s\n", result, store_result_name(result));
    else if (result == STORE_PROTOCOL)
        puts("protocol");
    else if (result == STORE_LOST || result == STORE_SILENT)
        puts("lost");
    else if (result != STORE_OK)
        fail("the client can't go on", store_result_name(result));
    fflush(stdout);
}

static void carry_out(struct store *store, char *line)
{
    char *words[MOST_WORDS + 1] = {NULL}, *rest;
    int count = 0;
    for (char *word = strtok_r(line, " \n", &rest); word && count <= MOST_WORDS; word = strtok_r(NULL, " \n", &rest))
        words[count++] = word;
    if (count == 0)
        fail("this is no operation", "an empty line");
    const struct operation *operation = operation_of(words[0]);
    if (count != 1 + operation->count)
        fail("so many words are not of", words[0]);
    print_failure(operation->run(store, words + 1));
}

int main(int count, char **words)
{
    struct store store;
    unsigned char key[STORE_KEY_BYTES];
    char *line = NULL;
    size_t size = 0;
    if (count != 4)
        fail("usage", "driver SOCKET JOB KEY");
    read_digits(words[3], key, sizeof key);
    int result = store_connect_within(&store, words[1], small_number_of(words[2]), key, PATIENCE);
    print_failure(done(result));
    while (!result && getline(&line, &size, stdin) >= 0)
        carry_out(&store, line);
    free(line);
    store_close(&store);
    return 0;
}
