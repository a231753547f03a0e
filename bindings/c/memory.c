/* Each allocation of each call refused in turn: the call answers that memory ran out, or what it answers with memory; a host goes on
 * afterwards as if the call had not been made; and nothing is left on the heap. Linked with -Wl,--wrap=malloc,--wrap=realloc,--wrap=free.
 * The last line counts the runs with one request refused; the status is 1 if one is wrong. */
#include <flowc.h>
#include <stdio.h>
#include <stdlib.h>
#include <string.h>

void *__real_malloc(size_t size);
void *__real_realloc(void *at, size_t size);
void __real_free(void *at);

static long asked, refused = -1, held;

void *__wrap_malloc(size_t size) {
    if (asked++ == refused)
        return NULL;
    held++;
    return __real_malloc(size);
}

void *__wrap_realloc(void *at, size_t size) {
    if (asked++ == refused)
        return NULL;
    held += at == NULL;
    return __real_realloc(at, size);
}

void __wrap_free(void *at) {
    held -= at != NULL;
    __real_free(at);
}

static const char hierarchy[] = "principal Alice, Bob;\n";
static const char source[] = "input{Alice:} s; output{Alice:} a; output{} n; global int{} g[9];\n"
                             "void f(int{} k) { int i = 0; while (i < k) { send n, i; i = i + 1; } }\n"
                             "void main() throws (End{Alice:}) { f(9); int x = receive s; send a, x; }\n";
static const char leaks[] = "input{Alice:} s; output{} n; void main() throws (End{Alice:}) { int x = receive s; int y = x; send n, y; }\n";
static const char world[] = "s = 3 4 5\n";
static uint8_t module[4096], place[4096];
static size_t module_size;
static flowc_pair pairs[64];

static const uint8_t *bytes(const char *text) {
    return (const uint8_t *)text;
}

static flowc_answer open_session(flowc_host *host) {
    return flowc_host_open(host, module, module_size, bytes(world), sizeof world - 1, place, sizeof place);
}

/* From here on the request of this number is refused. */
static void refuse(long number) {
    asked = 0;
    refused = number;
}

/* How a call ends for the caller: FLOWC_DONE for what was wanted, FLOWC_NO_MEMORY, and 9 for what is wrong. */
static int ended(uint32_t status, int as_wanted) {
    return status == FLOWC_NO_MEMORY ? FLOWC_NO_MEMORY : as_wanted ? FLOWC_DONE : 9;
}

static int try_compile(flowc_host *host, long number) {
    (void)host;
    refuse(number);
    flowc_outcome outcome = flowc_compile(bytes(hierarchy), sizeof hierarchy - 1, bytes(source), sizeof source - 1, place, sizeof place);
    return ended(outcome.status, outcome.status == FLOWC_DONE && outcome.length == module_size && !memcmp(place, module, module_size));
}

static int try_check(flowc_host *host, long number) {
    (void)host;
    refuse(number);
    flowc_outcome outcome = flowc_check(bytes(hierarchy), sizeof hierarchy - 1, bytes(leaks), sizeof leaks - 1, place, sizeof place);
    return ended(outcome.status, outcome.status == FLOWC_REFUSED && outcome.number == 601);
}

static int try_explain(flowc_host *host, long number) {
    (void)host;
    refuse(number);
    flowc_outcome outcome = flowc_explain(bytes(hierarchy), sizeof hierarchy - 1, bytes(leaks), sizeof leaks - 1, place, sizeof place);
    return ended(outcome.status, outcome.status == FLOWC_REFUSED && outcome.length && !memcmp(place, "policy {Alice:}\n", 16));
}

static int try_list(flowc_host *host, long number) {
    (void)host;
    refuse(number);
    flowc_outcome outcome = flowc_list(module, module_size, place, sizeof place);
    return ended(outcome.status, outcome.status == FLOWC_DONE && !memcmp(place, "input s {Alice:}\n", 17));
}

static int try_new(flowc_host *host, long number) {
    flowc_host_free(host);
    refuse(number);
    uint32_t status = flowc_host_new(host);
    return ended(status, status == FLOWC_DONE && host->full);
}

static int try_open(flowc_host *host, long number) {
    refuse(number);
    flowc_answer answer = open_session(host);
    long used = asked;
    refuse(-1);
    uint64_t next = answer.status == FLOWC_DONE;
    flowc_answer after = open_session(host);
    asked = used;
    return after.status == FLOWC_DONE && after.id == next ? ended(answer.status, answer.status == FLOWC_DONE && answer.id == 0) : 9;
}

static int try_open_under(flowc_host *host, long number) {
    static const char larger[] = "principal Dave, Bob, Alice; Dave actsfor Alice;";
    refuse(number);
    flowc_answer answer = flowc_host_open_under(host, module, module_size, bytes(world), sizeof world - 1, bytes(larger), sizeof larger - 1,
                                                place, sizeof place);
    long used = asked;
    refuse(-1);
    uint64_t next = answer.status == FLOWC_DONE;
    flowc_answer after = open_session(host);
    asked = used;
    return after.status == FLOWC_DONE && after.id == next ? ended(answer.status, answer.status == FLOWC_DONE && answer.id == 0) : 9;
}

/* A turn without memory is done, and says so; a further one takes the step again. */
static int try_turn(flowc_host *host, long number) {
    refuse(-1);
    if (open_session(host).status != FLOWC_DONE)
        return 9;
    refuse(number);
    flowc_answer answer = flowc_host_turn(host, 0, 1000);
    long used = asked;
    refuse(-1);
    flowc_answer after = flowc_host_turn(host, 0, 1000), all = flowc_host_sent(host, 0, pairs, 64);
    asked = used;
    if (answer.status != FLOWC_DONE || after.run != FLOWC_FINISHED || all.length != 10 || pairs[9].number != 3)
        return 9;
    return answer.run == FLOWC_OUT_OF_MEMORY ? FLOWC_NO_MEMORY : answer.run == FLOWC_FINISHED ? FLOWC_DONE : 9;
}

static int try_pairs(flowc_host *host, long number, int is_view) {
    refuse(-1);
    if (open_session(host).status != FLOWC_DONE || flowc_host_turn(host, 0, 1000).run != FLOWC_FINISHED)
        return 9;
    refuse(number);
    flowc_answer answer = is_view ? flowc_host_view(host, 0, 1, pairs, 64) : flowc_host_sent(host, 0, pairs, 64);
    return ended(answer.status, answer.status == FLOWC_DONE && answer.length == (is_view ? 9 : 10) && pairs[8].number == 8);
}

static int try_view(flowc_host *host, long number) {
    return try_pairs(host, number, 1);
}

static int try_sent(flowc_host *host, long number) {
    return try_pairs(host, number, 0);
}

static int try_principal(flowc_host *host, long number) {
    (void)host;
    refuse(number);
    uint32_t found = flowc_principal(module, module_size, bytes("Bob"), 3);
    return found == FLOWC_PRINCIPAL_NO_MEMORY ? FLOWC_NO_MEMORY : found == 1 ? FLOWC_DONE : 9;
}

int main(void) {
    static const struct {
        const char *name;
        int (*try_it)(flowc_host *host, long number);
    } calls[] = {{"compile", try_compile}, {"check", try_check}, {"explain", try_explain}, {"list", try_list}, {"new", try_new},
                 {"open", try_open}, {"open_under", try_open_under}, {"turn", try_turn}, {"view", try_view}, {"sent", try_sent}, {"principal", try_principal}};
    long right = 0, wrong = 0, answered = 0;
    flowc_outcome outcome = flowc_compile(bytes(hierarchy), sizeof hierarchy - 1, bytes(source), sizeof source - 1, module, sizeof module);
    module_size = outcome.length;
    for (size_t at = 0; at < sizeof calls / sizeof *calls; at++) {
        long number = 0, used;
        do {
            flowc_host host = {0};
            refuse(-1);
            long before = held;
            int made = flowc_host_new(&host) == FLOWC_DONE;
            int end = calls[at].try_it(&host, number);
            used = asked;
            refuse(-1);
            flowc_host_free(&host);
            int holds = made && held == before && (end == FLOWC_DONE || (end == FLOWC_NO_MEMORY && number < used));
            answered += end == FLOWC_NO_MEMORY;
            right += holds;
            wrong += !holds;
            if (!holds)
                printf("%s, request %ld of %ld: ended %d, %ld blocks left\n", calls[at].name, number, used, end, held - before);
        } while (number++ < used);
    }
    printf("%ld answered that memory ran out\n%ld passed, %ld failed\n", answered, right, wrong);
    return wrong != 0 || answered == 0;
}
