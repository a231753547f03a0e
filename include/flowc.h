/* flowc: checks, compiles, explains and lists, and runs modules in a host that shows each party what it may read. For C99 and later,
 * and for C++.
 *
 * Texts and modules are bytes: a pointer and a length, where a null pointer with the length 0 is an empty text. The library keeps no
 * pointer after a call, prints nothing, has no global state, and takes memory from malloc. What a host holds it gives back by
 * flowc_host_free, and all else before the call ends.
 *
 * A result whose length the caller cannot know goes to the head of a buffer, `out` with `out_size` bytes, and the outcome says in
 * `length` how many bytes it has. No zero byte is put behind it. Where the result does not fit the status is FLOWC_TOO_SHORT and the
 * buffer is as it was: a second call with `length` bytes gets it. The words of a refusal go there too; where they alone do not fit, the
 * status is FLOWC_REFUSED all the same, `length` is greater than `out_size`, and the buffer is as it was. FLOWC_WORDS bytes hold any.
 *
 * What the caller owes, and nothing checks: each pointer is valid for its length, and aligned; nothing else writes there during the call;
 * `out` overlaps no input; enough stack is left; no call is made from a signal handler, nor in the forked child of a process with threads.
 * Calls on any threads at once are fine, but for calls on the same host: what is owed there stands at flowc_host.
 *
 * Stack: 8 MiB are enough where texts are checked, compiled or explained, and half a MiB elsewhere. The most that was seen are 5 MiB, for
 * a source of 30 KB that nests thousands of left operands; sources that are written by hand take less than half a MiB.
 */
#ifndef FLOWC_H
#define FLOWC_H

#include <stdbool.h>
#include <stddef.h>
#include <stdint.h>

#ifdef __cplusplus
extern "C" {
#endif

/* How a call ended. */
enum {
    FLOWC_DONE = 0,      /* it has done what it says */
    FLOWC_REFUSED = 1,   /* what was given is refused: `number` says why */
    FLOWC_NO_HOST = 2,   /* the handle holds no host, and nothing has changed */
    FLOWC_NO_MEMORY = 3, /* memory ran out, and nothing has changed */
    FLOWC_TOO_SHORT = 4  /* the result has the length `length`, and `out_size` is less: nothing has changed */
};

/* What is refused. */
enum {
    FLOWC_HIERARCHY = 0, /* the text of the hierarchy, at `line` and `column` */
    FLOWC_SOURCE = 1,    /* the source, at `line` and `column` */
    FLOWC_BYTES = 2,     /* the bytes of a module, at `offset` */
    FLOWC_CODE = 3,      /* the code of the procedure `procedure` of a module, at `offset` of that code */
    FLOWC_WORLD = 4,     /* the text of a world, at `line` */
    FLOWC_EVENT = 5      /* what a host was asked: it has no place */
};

/* A buffer of this many bytes holds the words of each refusal. */
enum { FLOWC_WORDS = 64 };

/* How a call ended, and where what was given is wrong. What a status does not speak of is 0. */
typedef struct flowc_outcome {
    uint32_t status;
    uint32_t number;    /* of a refusal: its number, as docs/ERRORS.md has it */
    uint32_t text;      /* of a refusal: what is refused */
    uint32_t procedure; /* of FLOWC_CODE */
    size_t line;        /* of FLOWC_HIERARCHY and FLOWC_SOURCE: from 1 */
    size_t column;      /* of FLOWC_HIERARCHY and FLOWC_SOURCE: from 1, in characters */
    size_t offset;      /* of FLOWC_BYTES and FLOWC_CODE: in bytes, from 0 */
    size_t length;      /* how many bytes the result or the words have */
} flowc_outcome;

/* Puts the version of the library, as "0.9.0", into `out`. Statuses: DONE, TOO_SHORT. */
flowc_outcome flowc_version(uint8_t *out, size_t out_size);

/* Checks a source under a hierarchy. Statuses: DONE, the texts are accepted; REFUSED, with their first fault, and its words in `out`;
 * NO_MEMORY. */
flowc_outcome flowc_check(const uint8_t *hierarchy, size_t hierarchy_size, const uint8_t *source, size_t source_size,
                          uint8_t *out, size_t out_size);

/* Compiles a source under a hierarchy, and puts the bytes of the module into `out`. Statuses: DONE; REFUSED, with the first fault of
 * the texts, and its words in `out`; NO_MEMORY; TOO_SHORT. */
flowc_outcome flowc_compile(const uint8_t *hierarchy, size_t hierarchy_size, const uint8_t *source, size_t source_size,
                            uint8_t *out, size_t out_size);

/* Puts into `out` a line for each local that is written without a label: its place, its name and its least label. Statuses: DONE;
 * REFUSED, with the first fault of the texts and, where that is a flow (601), its chain in `out`: the policy that flows, and a line for
 * each statement by which it comes there; NO_MEMORY; TOO_SHORT. The words of a refusal are those that flowc_check gives. */
flowc_outcome flowc_explain(const uint8_t *hierarchy, size_t hierarchy_size, const uint8_t *source, size_t source_size,
                            uint8_t *out, size_t out_size);

/* Puts the listing of a module into `out`: a line for each channel, with its direction, name and label, and the code. Statuses: DONE;
 * REFUSED, where the bytes spell no module or its code is refused, with the words in `out`; NO_MEMORY; TOO_SHORT. */
flowc_outcome flowc_list(const uint8_t *module, size_t module_size, uint8_t *out, size_t out_size);

/* A host: it holds sessions, each a run of a module on a world of its own. Before its first use the handle is zeros, as
 * `flowc_host host = {0};` makes it, and then it holds no host. Only the functions below read and write it: the caller neither reads nor
 * sets the fields, copies no handle that holds a host, and gives it back by flowc_host_free. A host is given to one call at a time. It
 * may go to another thread, where a lock, or the start or the end of a thread, orders the calls; two threads may use two hosts.
 *
 * At most 64 sessions are open in a host. A call that is not done has changed no session. */
typedef struct flowc_host {
    void *at;
    bool full;
} flowc_host;

/* What was sent: the number of the channel, as flowc_list counts the channels from 0, and what was sent on it. */
typedef struct flowc_pair {
    uint32_t channel;
    int32_t number;
} flowc_pair;

/* How a run stands. */
enum {
    FLOWC_RUNNING = 0,      /* a further turn goes on */
    FLOWC_FINISHED = 1,     /* it has ended */
    FLOWC_THREW = 2,        /* it has ended by the exception `thrown` */
    FLOWC_DEEP = 3,         /* it has ended at a call where 512 frames were in use */
    FLOWC_OUT_OF_MEMORY = 4 /* there was no memory for its next step, and nothing is lost: a further turn takes that step */
};

/* What a host answered. What a status does not speak of is 0. */
typedef struct flowc_answer {
    uint32_t status;
    uint32_t number;    /* of a refusal: its number, as docs/ERRORS.md has it */
    uint32_t text;      /* of a refusal: what is refused */
    uint32_t procedure; /* of FLOWC_CODE */
    size_t line;        /* of FLOWC_WORLD and FLOWC_HIERARCHY: from 1 */
    size_t column;      /* of FLOWC_HIERARCHY: from 1, in characters */
    size_t offset;      /* of FLOWC_BYTES and FLOWC_CODE: in bytes, from 0 */
    size_t length;      /* of a view and of all that was sent: how many pairs; of a refused opening: the bytes of its words */
    uint64_t id;        /* of an opening: the id of the session */
    uint64_t taken;     /* of a turn: how many steps it took */
    uint32_t run;       /* of a turn and of a status: how the run then stands */
    uint32_t thrown;    /* of FLOWC_THREW: the number of the exception: 0 Arith, 1 Bounds, 2 End, and from 3 on those of the module */
} flowc_answer;

/* Makes a host without sessions, and puts it into the handle. A host that is there is given back first. DONE, or NO_MEMORY: the handle
 * then holds no host. */
uint32_t flowc_host_new(flowc_host *host);

/* Opens a session of a module on the world that a text writes, and answers its `id`. The ids of a host are 0, 1, 2 and so on, and none is
 * given twice. Statuses: DONE; REFUSED, with the words in `words`, by the first that applies: 801 to 806 the bytes, 100 and 851 to 854 the
 * world, 901: 64 sessions are open, 811 to 815 the code; NO_HOST; NO_MEMORY. */
flowc_answer flowc_host_open(flowc_host *host, const uint8_t *module, size_t module_size, const uint8_t *world, size_t world_size,
                             uint8_t *words, size_t words_size);

/* Lets a session take at most `steps` steps, and answers how many it took and how its run then stands. Statuses: DONE, also where the run
 * ended before; REFUSED, by 902: no open session has the id; NO_HOST. */
flowc_answer flowc_host_turn(flowc_host *host, uint64_t id, uint64_t steps);

/* Answers how the run of a session stands, as a turn of 0 steps does. Statuses: DONE; REFUSED, by 902; NO_HOST. */
flowc_answer flowc_host_status(flowc_host *host, uint64_t id);

/* Puts into `out`, which has room for `out_size` pairs, what a principal sees of what a session has sent so far: the pairs on channels
 * whose labels it may read, in the order in which they were sent. A principal is named by its number (flowc_principal). Statuses: DONE;
 * REFUSED, by 902, or by 153: there is no principal of this number; NO_HOST; NO_MEMORY; TOO_SHORT. */
flowc_answer flowc_host_view(flowc_host *host, uint64_t id, uint32_t principal, flowc_pair *out, size_t out_size);

/* Puts all pairs that a session has sent so far into `out`. This is for the operator, who is trusted: it looks at no label. Statuses:
 * DONE; REFUSED, by 902; NO_HOST; NO_MEMORY; TOO_SHORT. */
flowc_answer flowc_host_sent(flowc_host *host, uint64_t id, flowc_pair *out, size_t out_size);

/* Closes a session. Its id is not given again. Statuses: DONE; REFUSED, by 902; NO_HOST. */
flowc_answer flowc_host_close(flowc_host *host, uint64_t id);

/* Closes all sessions and gives the host back. The handle is zeros then; where it held no host nothing happens. */
void flowc_host_free(flowc_host *host);

#define FLOWC_NO_PRINCIPAL UINT32_MAX                /* the bytes spell no module, or one without such a principal */
#define FLOWC_PRINCIPAL_NO_MEMORY (UINT32_MAX - 1)   /* memory ran out */

/* The number by which a module knows the principal of this name, or one of the two above. */
uint32_t flowc_principal(const uint8_t *module, size_t module_size, const uint8_t *name, size_t name_size);

/* Opens a session as flowc_host_open does, under the hierarchy that a text writes, which has to contain the module's: each principal and
 * each acts-for is there by name. Its principals view the session, numbered in the order in which the text declares them: flowc_principal
 * has the number of a name for a module that is compiled under this text. Statuses: as of flowc_host_open; REFUSED also by 100, 151 to 154
 * and 701, at a line and a column of the hierarchy, and by 903: it does not contain the module's. */
flowc_answer flowc_host_open_under(flowc_host *host, const uint8_t *module, size_t module_size, const uint8_t *world, size_t world_size,
                                   const uint8_t *hierarchy, size_t hierarchy_size, uint8_t *words, size_t words_size);

#ifdef __cplusplus
}
#endif

#endif
