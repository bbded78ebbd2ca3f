/* A client of the object store in C: a session with a node, over its Unix socket. One header, one file, no library but libc.
 *
 * Each call sends commands and waits for their replies. It gives STORE_OK, the number of a refusal, or a negative result.
 *
 * After STORE_LOST, STORE_PROTOCOL, STORE_SILENT and STORE_MALFORMED the session is over. Its socket is closed, so that no late reply is
 * taken for that of another command, and each later call is STORE_LOST with errno ENOTCONN. After any other result the session goes on.
 *
 * A session is one thread's at a time, and one process's. Sessions have nothing in common: threads that call at the same time have one
 * each.
 */
#ifndef STORE_CLIENT_H
#define STORE_CLIENT_H

#include <stddef.h>
#include <stdint.h>

enum store_result {
    STORE_LOST = -1,           /* the server is gone, or closed the session; errno says more if it isn't 0 */
    STORE_PROTOCOL = -2,       /* what came is no reply to the command */
    STORE_NO_MEMORY_HERE = -3, /* malloc failed in this process; the session goes on */
    STORE_SILENT = -4,         /* the server didn't answer in the time that the call had */
    STORE_OTHER_LENGTH = -5,   /* the object hasn't the length that was given; the session goes on */
    STORE_OK = 0,
    /* what the server refuses; docs/rules/refusals.md says what each means and may have changed */
    STORE_NOT_ADMITTED = 1,
    STORE_BAD_ID,
    STORE_EXISTS,
    STORE_ABSENT,
    STORE_NOT_SEALED,
    STORE_ALREADY_SEALED,
    STORE_BAD_SIZE,
    STORE_OUT_OF_BOUNDS,
    STORE_FULL,
    STORE_PENDING,
    STORE_NOT_HELD,
    STORE_GRANTED,
    STORE_NOT_GRANTED,
    STORE_DEVICE_FAILED,
    STORE_DAMAGED,
    STORE_BUSY,
    STORE_TOO_MANY,
    STORE_GONE,
    STORE_NO_MEMORY,
    STORE_MALFORMED,
    STORE_NO_ROOM,
    STORE_NOT_OWNER,
    STORE_NOT_RESIDENT,
    STORE_STALE
};

enum {
    STORE_KEY_BYTES = 32,
    STORE_TASK_BYTES = 20,
    STORE_ID_BYTES = 28,
    STORE_MOST_BYTES = 65536, /* that one write, read or peek moves */
    STORE_LARGEST = 16777216, /* the most bytes of an object */
    STORE_OPENING = 60000     /* milliseconds that connecting takes at most, if nothing else is said */
};

enum store_kind { STORE_PRIMARY, STORE_SECONDARY };

enum store_state { STORE_CREATED, STORE_SEALED, STORE_RESTORING, STORE_FETCHING, STORE_AWAY };

/* A session. Its fields are the client's own. */
struct store {
    int socket; /* -1 once the session is over */
    uint32_t job;
    uint32_t limit; /* milliseconds that a call takes at most; 0 is no limit */
    int64_t end;    /* when the call that is made is over, in microseconds of the monotonic clock */
    uint64_t holds; /* that store_hold has got and nothing has given up */
    uint64_t made;  /* how many new ids */
    unsigned char task[STORE_TASK_BYTES]; /* drawn by lot, for new ids */
};

/* An object: its task, its job, and its index in the task, from 1. */
struct store_id {
    unsigned char bytes[STORE_ID_BYTES];
};

/* Where a copy lies in the job's window, and how many bytes of it are taken. */
struct store_placed {
    uint32_t offset, length;
};

/* The quotas of a job at a node and what is used of them, in bytes; its copies, and its device works in flight. */
struct store_usage {
    uint64_t window, window_used, device, device_used, copies, works;
};

/* A copy of the job's, or an object that another job granted: that has a depth from 1 on instead of state and kind. */
struct store_item {
    struct store_id id;
    uint32_t length;
    enum store_state state;
    enum store_kind kind;
    uint8_t depth;
};

/* The job's own copies at the node, in order of id, and after them what was granted to it. The caller frees the items. */
struct store_listing {
    struct store_item *items;
    size_t own, granted;
};

/* The name of a result, as docs/rules/refusals.md has it: "Absent". */
const char *store_result_name(int result);

/* ---- the session */

/* A session of the job, whose key of 32 bytes the operator gave. STORE_NOT_ADMITTED. Close it in any case.
 * It connects and is admitted within so many milliseconds, and each later call has as many, as by store_set_timeout. 0, as store_connect
 * gives it, is STORE_OPENING to connect, and no limit for later calls. */
int store_connect(struct store *store, const char *path, uint32_t job, const unsigned char *key);
int store_connect_within(struct store *store, const char *path, uint32_t job, const unsigned char *key, uint32_t milliseconds);
void store_close(struct store *store);

/* From now on a call takes at most so many milliseconds, from its beginning to its end, whatever it sends and reads, and however many
 * signals come. 0, as store_connect leaves it, is no limit: a server may be silent for ever, a put may wait for room and a get for a
 * transfer, so set one. If a reply is due when the time is over, that is STORE_SILENT. A put, get or wait that only waits to ask once more
 * ends with the last refusal, and the session goes on. */
void store_set_timeout(struct store *store, uint32_t milliseconds);

/* ---- ids */

/* The object of a task whose text is tN, of a job, and an index. */
struct store_id store_id_of(uint64_t task, uint32_t job, uint32_t index);

/* An id that no other session makes. */
struct store_id store_new_id(struct store *store);

/* ---- whole objects */

/* A sealed object of these bytes, 1 to 16,777,216. Waits for room, and until a fetch in its place has ended. If a part of it is refused
 * it is deleted again. If the session is lost in the middle a copy may stay, which somebody has to delete.
 * STORE_EXISTS, STORE_FULL; STORE_PENDING, STORE_BUSY if there was no room in time. */
int store_put(struct store *store, struct store_id id, const void *bytes, size_t length);

/* The same under a new id. Since nobody else knows that, up to 1 MiB goes in one trip to the server. */
int store_put_new(struct store *store, struct store_id *id, const void *bytes, size_t length);

/* The bytes of an object of this job, or of one that was granted to it, in memory that the caller frees. Waits for a transfer from another
 * node or from the device, and not until somebody puts the object. STORE_ABSENT, STORE_NOT_SEALED, STORE_NOT_GRANTED; STORE_PENDING if it
 * hasn't come in time. */
int store_get(struct store *store, struct store_id id, void **bytes, size_t *length);

/* The same of an object that has this length, into the caller's memory: up to 1 MiB in one trip, if the session holds nothing.
 * STORE_OTHER_LENGTH. Unless it is STORE_OK the memory may have been written to. */
int store_get_into(struct store *store, struct store_id id, void *bytes, size_t length);

/* As store_get, and waits at most so many milliseconds until somebody puts the object, or grants it. Then it is the last refusal. The
 * time of the call bounds it, too; give that more, so that there is time for the last answer. */
int store_wait(struct store *store, struct store_id id, uint32_t milliseconds, void **bytes, size_t *length);

/* ---- single commands */

/* A copy of zeros to be written, of this length in bytes; its pieces, of at most 65,536 bytes; its seal. `placed` may be null.
 * store_create_wait is answered once there is room. */
int store_create(struct store *store, struct store_id id, uint32_t length);
int store_create_as(struct store *store, struct store_id id, enum store_kind kind, uint32_t length, struct store_placed *placed);
int store_create_wait(struct store *store, struct store_id id, enum store_kind kind, uint32_t length, struct store_placed *placed);
int store_write(struct store *store, struct store_id id, uint32_t offset, const void *bytes, uint32_t length);
int store_seal(struct store *store, struct store_id id);

/* One hold of the session more on a sealed object, and its length. What is on its way is STORE_PENDING; store_hold_wait waits for it. Then
 * its bytes, at most 65,536; one hold less; no hold any more. */
int store_hold(struct store *store, struct store_id id, uint32_t *length);
int store_hold_wait(struct store *store, struct store_id id, uint32_t *length);
int store_read(struct store *store, struct store_id id, uint32_t offset, void *bytes, uint32_t length);
int store_release(struct store *store, struct store_id id);
int store_leave(struct store *store);

/* Removes an object once nobody holds it. The end of a task, of 20 bytes, and of its objects. */
int store_delete(struct store *store, struct store_id id);
int store_end_task(struct store *store, const unsigned char *task);

/* The owner's pin is given up; another task borrows the object, and gives it up. */
int store_unpin(struct store *store, struct store_id id, const unsigned char *task);
int store_borrow(struct store *store, struct store_id id, const unsigned char *task);
int store_give_up(struct store *store, struct store_id id, const unsigned char *task);

/* Lets another job peek at an object, and no longer; at most 65,536 bytes of an object that another job granted. */
int store_grant(struct store *store, struct store_id id, uint32_t job);
int store_withdraw(struct store *store, struct store_id id, uint32_t job);
int store_peek(struct store *store, struct store_id id, uint32_t offset, void *bytes, uint32_t length);

/* What there is, and what the job uses. */
int store_list(struct store *store, struct store_listing *listing);
int store_usage(struct store *store, struct store_usage *usage);

#endif
