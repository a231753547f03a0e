/* Calls of the host from C, each with the answer that include/flowc.h says. The last line counts them; the status is 1 if one is wrong. */
#include <flowc.h>
#include <pthread.h>
#include <stdio.h>
#include <string.h>

_Static_assert(sizeof(flowc_host) == 16 && sizeof(flowc_pair) == 8, "two words; a channel and a number");
_Static_assert(sizeof(flowc_outcome) == 48 && sizeof(flowc_answer) == 72, "no room between the fields");
_Static_assert(offsetof(flowc_answer, id) == sizeof(flowc_outcome), "an answer begins as an outcome does");

static int right, wrong;

static void say(int holds, int line, const char *what) {
    right += holds != 0;
    wrong += holds == 0;
    if (!holds)
        printf("line %d: %s\n", line, what);
}
#define CHECK(what) say(what, __LINE__, #what)

static const char hierarchy[] = "principal Alice, Bob;\n";
static const char source[] = "input{Alice:} s; output{Alice:} a; output{} n;\n"
                             "void main() throws (End{Alice:}) { send n, 1; int x = receive s; send a, x; }\n";
static uint8_t module[1024];
static size_t module_size;

static const uint8_t *bytes(const char *text) {
    return (const uint8_t *)text;
}

static void compile_module(void) {
    flowc_outcome outcome = flowc_compile(bytes(hierarchy), sizeof hierarchy - 1, bytes(source), sizeof source - 1, module, sizeof module);
    CHECK(outcome.status == FLOWC_DONE);
    module_size = outcome.length;
}

static flowc_answer open_on(flowc_host *host, const char *world) {
    return flowc_host_open(host, module, module_size, bytes(world), strlen(world), NULL, 0);
}

static void test_no_host(void) {
    flowc_host host = {0};
    flowc_pair pair = {7, 7};
    uint8_t words[FLOWC_WORDS] = {7};
    CHECK(flowc_host_open(&host, module, module_size, NULL, 0, words, sizeof words).status == FLOWC_NO_HOST && words[0] == 7);
    CHECK(flowc_host_turn(&host, 0, 1).status == FLOWC_NO_HOST);
    CHECK(flowc_host_status(&host, 0).status == FLOWC_NO_HOST);
    CHECK(flowc_host_view(&host, 0, 0, &pair, 1).status == FLOWC_NO_HOST && pair.channel == 7);
    CHECK(flowc_host_sent(&host, 0, &pair, 1).status == FLOWC_NO_HOST && pair.number == 7);
    CHECK(flowc_host_close(&host, 0).status == FLOWC_NO_HOST);
    flowc_host_free(&host);
    CHECK(host.at == NULL && !host.full);
}

static void test_turns(void) {
    flowc_host host = {0};
    CHECK(flowc_host_new(&host) == FLOWC_DONE);
    flowc_answer answer = open_on(&host, "s = -5\n");
    CHECK(answer.status == FLOWC_DONE && answer.id == 0);
    answer = flowc_host_turn(&host, 0, 2);
    CHECK(answer.status == FLOWC_DONE && answer.taken == 2 && answer.run == FLOWC_RUNNING);
    answer = flowc_host_turn(&host, 0, UINT64_MAX);
    CHECK(answer.status == FLOWC_DONE && answer.taken > 2 && answer.run == FLOWC_FINISHED);
    answer = flowc_host_status(&host, 0);
    CHECK(answer.status == FLOWC_DONE && answer.taken == 0 && answer.run == FLOWC_FINISHED);
    CHECK(flowc_host_close(&host, 0).status == FLOWC_DONE);
    answer = flowc_host_close(&host, 0);
    CHECK(answer.status == FLOWC_REFUSED && answer.number == 902 && answer.text == FLOWC_EVENT);
    answer = flowc_host_turn(&host, 0, 1);
    CHECK(answer.status == FLOWC_REFUSED && answer.number == 902);
    answer = open_on(&host, "");
    CHECK(answer.status == FLOWC_DONE && answer.id == 1);
    answer = flowc_host_turn(&host, 1, 100);
    CHECK(answer.run == FLOWC_THREW && answer.thrown == 2);
    CHECK(flowc_host_new(&host) == FLOWC_DONE && flowc_host_status(&host, 1).number == 902 && open_on(&host, "").id == 0);
    flowc_host_free(&host);
    flowc_host_free(&host);
    CHECK(flowc_host_status(&host, 0).status == FLOWC_NO_HOST);
}

static uint32_t principal(const char *name) {
    return flowc_principal(module, module_size, bytes(name), strlen(name));
}

static void test_pairs(void) {
    flowc_host host = {0};
    flowc_pair pairs[3] = {{7, 7}, {7, 7}, {7, 7}};
    CHECK(flowc_host_new(&host) == FLOWC_DONE && open_on(&host, "s = -5\n").id == 0);
    CHECK(flowc_host_turn(&host, 0, 1000).run == FLOWC_FINISHED);
    CHECK(principal("Carol") == FLOWC_NO_PRINCIPAL && flowc_principal(NULL, 0, NULL, 0) == FLOWC_NO_PRINCIPAL);
    flowc_answer answer = flowc_host_view(&host, 0, principal("Alice"), pairs, 1);
    CHECK(answer.status == FLOWC_TOO_SHORT && answer.length == 2 && pairs[0].channel == 7);
    answer = flowc_host_view(&host, 0, principal("Alice"), pairs, 3);
    CHECK(answer.status == FLOWC_DONE && answer.length == 2 && pairs[0].channel == 2 && pairs[0].number == 1);
    CHECK(pairs[1].channel == 1 && pairs[1].number == -5 && pairs[2].channel == 7 && pairs[2].number == 7);
    answer = flowc_host_view(&host, 0, principal("Bob"), pairs, 3);
    CHECK(answer.status == FLOWC_DONE && answer.length == 1 && pairs[0].channel == 2 && pairs[1].channel == 1);
    answer = flowc_host_view(&host, 0, 2, pairs, 3);
    CHECK(answer.status == FLOWC_REFUSED && answer.number == 153 && answer.text == FLOWC_EVENT);
    CHECK(flowc_host_view(&host, 1, 0, pairs, 3).number == 902 && flowc_host_sent(&host, 1, pairs, 3).number == 902);
    answer = flowc_host_sent(&host, 0, NULL, 0);
    CHECK(answer.status == FLOWC_TOO_SHORT && answer.length == 2);
    answer = flowc_host_sent(&host, 0, pairs, 2);
    CHECK(answer.status == FLOWC_DONE && answer.length == 2 && pairs[1].number == -5);
    flowc_host_free(&host);
}

/* A refused opening, with a place for its words of each length. */
static void refuses(const uint8_t *given, size_t size, const char *world, flowc_answer wanted) {
    flowc_host host = {0};
    CHECK(flowc_host_new(&host) == FLOWC_DONE);
    for (size_t room = 0; room <= FLOWC_WORDS; room++) {
        uint8_t words[FLOWC_WORDS];
        memset(words, 0xaa, sizeof words);
        flowc_answer answer = flowc_host_open(&host, given, size, bytes(world), strlen(world), words, room);
        CHECK(answer.status == FLOWC_REFUSED && answer.number == wanted.number && answer.text == wanted.text);
        CHECK(answer.line == wanted.line && answer.offset == wanted.offset && answer.length > 0 && answer.length <= FLOWC_WORDS);
        size_t kept = answer.length <= room ? answer.length : 0;
        CHECK(kept == FLOWC_WORDS || words[kept] == 0xaa);
        CHECK(kept == 0 || (words[0] != 0xaa && words[kept - 1] != 0xaa));
    }
    CHECK(open_on(&host, "").id == 0);
    flowc_host_free(&host);
}

static void test_refusals(void) {
    refuses(NULL, 0, "", (flowc_answer){.number = 803, .text = FLOWC_BYTES});
    refuses(bytes("no module"), 9, "", (flowc_answer){.number = 801, .text = FLOWC_BYTES});
    refuses(module, module_size - 1, "", (flowc_answer){.number = 803, .text = FLOWC_BYTES, .offset = module_size - 1});
    refuses(module, module_size, "s 1", (flowc_answer){.number = 851, .text = FLOWC_WORLD, .line = 1});
    refuses(module, module_size, "\ns = 1\nt = 2\n", (flowc_answer){.number = 852, .text = FLOWC_WORLD, .line = 3});
    refuses(module, module_size, "s = 1\ns = 2\n", (flowc_answer){.number = 853, .text = FLOWC_WORLD, .line = 2});
    refuses(module, module_size, "s = 2147483648", (flowc_answer){.number = 854, .text = FLOWC_WORLD, .line = 1});
    refuses(module, module_size, "\xff", (flowc_answer){.number = 100, .text = FLOWC_WORLD, .line = 1});
}

static flowc_answer open_under(flowc_host *host, const char *larger, uint8_t *words) {
    return flowc_host_open_under(host, module, module_size, bytes("s = 4"), 5, bytes(larger), strlen(larger), words, FLOWC_WORDS);
}

static void test_under(void) {
    flowc_host host = {0};
    flowc_pair pairs[4];
    uint8_t words[FLOWC_WORDS];
    CHECK(open_under(&host, hierarchy, words).status == FLOWC_NO_HOST);
    CHECK(flowc_host_new(&host) == FLOWC_DONE);
    flowc_answer answer = open_under(&host, "principal Bob;", words);
    CHECK(answer.status == FLOWC_REFUSED && answer.number == 903 && answer.length == 23 && !memcmp(words, "hierarchy not contained", 23));
    answer = open_under(&host, "principal Alice,\nAlice;", words);
    CHECK(answer.status == FLOWC_REFUSED && answer.number == 152 && answer.text == FLOWC_HIERARCHY && answer.line == 2 && answer.column == 1);
    answer = open_under(&host, "principal Dave, Bob, Alice; Dave actsfor Alice;", words);
    CHECK(answer.status == FLOWC_DONE && answer.id == 0);
    CHECK(flowc_host_turn(&host, 0, 1000).run == FLOWC_FINISHED);
    CHECK(flowc_host_view(&host, 0, 0, pairs, 4).length == 2 && flowc_host_view(&host, 0, 2, pairs, 4).length == 2);
    CHECK(flowc_host_view(&host, 0, 1, pairs, 4).length == 1 && flowc_host_view(&host, 0, 3, pairs, 4).number == 153);
    flowc_host_free(&host);
}

static void test_many(void) {
    flowc_host host = {0};
    uint8_t words[FLOWC_WORDS];
    CHECK(flowc_host_new(&host) == FLOWC_DONE);
    for (uint64_t id = 0; id < 64; id++)
        CHECK(open_on(&host, "").id == id);
    flowc_answer answer = flowc_host_open(&host, module, module_size, NULL, 0, words, sizeof words);
    CHECK(answer.status == FLOWC_REFUSED && answer.number == 901 && answer.text == FLOWC_EVENT);
    CHECK(answer.length == 4 && !memcmp(words, "full", 4));
    CHECK(flowc_host_close(&host, 63).status == FLOWC_DONE && open_on(&host, "").id == 64);
    flowc_host_free(&host);
}

/* Sessions of a host of its own; how many were not as wanted. */
static void *serve(void *nothing) {
    (void)nothing;
    flowc_host host = {0};
    flowc_pair pairs[4];
    size_t unlike = flowc_host_new(&host) != FLOWC_DONE;
    for (uint64_t id = 0; id < 2000; id++) {
        unlike += open_on(&host, "s = 9").id != id;
        unlike += flowc_host_turn(&host, id, 1000).run != FLOWC_FINISHED;
        unlike += flowc_host_view(&host, id, 0, pairs, 4).length != 2 || pairs[1].number != 9;
        unlike += flowc_host_view(&host, id, 1, pairs, 4).length != 1;
        unlike += flowc_host_close(&host, id).status != FLOWC_DONE;
    }
    flowc_host_free(&host);
    return (void *)unlike;
}

static void *turn_to_the_end(void *host) {
    return (void *)(size_t)flowc_host_turn(host, 0, 1000).run;
}

static void test_threads(void) {
    pthread_t threads[2];
    void *unlike[2];
    for (int at = 0; at < 2; at++)
        CHECK(!pthread_create(&threads[at], NULL, serve, NULL));
    for (int at = 0; at < 2; at++)
        CHECK(!pthread_join(threads[at], &unlike[at]) && unlike[at] == NULL);
    flowc_host host = {0};
    void *run;
    CHECK(flowc_host_new(&host) == FLOWC_DONE && open_on(&host, "s = 9").status == FLOWC_DONE);
    CHECK(!pthread_create(&threads[0], NULL, turn_to_the_end, &host) && !pthread_join(threads[0], &run) && run == (void *)FLOWC_FINISHED);
    CHECK(flowc_host_sent(&host, 0, NULL, 0).length == 2);
    flowc_host_free(&host);
}

int main(void) {
    compile_module();
    test_no_host();
    test_turns();
    test_pairs();
    test_refusals();
    test_under();
    test_many();
    test_threads();
    printf("%d passed, %d failed\n", right, wrong);
    return wrong != 0;
}
