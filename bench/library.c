/* What calls of a host cost in C. Arguments: a hierarchy, a source and a world, as files, and `memory` where times are left out. A line for
   each figure: its name and its value. */
#define _GNU_SOURCE
#include <flowc.h>
#include <malloc.h>
#include <stdio.h>
#include <time.h>

enum { ROOM = 1 << 20, SESSIONS = 64 };

static uint8_t hierarchy[ROOM], source[ROOM], world[ROOM], module[ROOM], words[FLOWC_WORDS];
static size_t hierarchy_size, source_size, world_size, module_size;
static flowc_pair pairs[4096];
static flowc_host host;
static uint64_t session;

static size_t read_file(const char *path, uint8_t *out) {
    FILE *opened = fopen(path, "rb");
    size_t size = opened ? fread(out, 1, ROOM, opened) : 0;
    if (opened)
        fclose(opened);
    return size;
}

/* The microseconds of processor time that the program has used, so that other programs count for little. */
static double now(void) {
    struct timespec time;
    clock_gettime(CLOCK_PROCESS_CPUTIME_ID, &time);
    return time.tv_sec * 1e6 + time.tv_nsec / 1e3;
}

static void check(void) {
    flowc_check(hierarchy, hierarchy_size, source, source_size, words, sizeof words);
}

static void compile(void) {
    module_size = flowc_compile(hierarchy, hierarchy_size, source, source_size, module, sizeof module).length;
}

static flowc_answer open_session(void) {
    return flowc_host_open(&host, module, module_size, world, world_size, words, sizeof words);
}

static void open_and_close(void) {
    flowc_host_close(&host, open_session().id);
}

static void turn(void) {
    flowc_host_turn(&host, session, 1);
}

static void view(void) {
    flowc_host_view(&host, session, 0, pairs, 4096);
}

static void open_turn_view_close(void) {
    uint64_t id = open_session().id;
    flowc_host_turn(&host, id, 1000000);
    flowc_host_view(&host, id, 0, pairs, 4096);
    flowc_host_close(&host, id);
}

/* The microseconds that a call takes: the least of nine rounds, each of so many calls. */
static void measure(const char *name, void (*call)(void), int calls) {
    double least = 1e18;
    for (int round = 0; round < 9; round++) {
        double start = now();
        for (int at = 0; at < calls; at++)
            call();
        double took = (now() - start) / calls;
        least = took < least ? took : least;
    }
    printf("%s %.3f\n", name, least);
}

/* The bytes that are allocated, large blocks among them. */
static size_t held(void) {
    struct mallinfo2 info = mallinfo2();
    return info.uordblks + info.hblkhd;
}

/* The bytes on the heap for each of 64 sessions, when they are open and when their runs have ended. */
static void measure_memory(void) {
    size_t before = held();
    uint64_t first = open_session().id;
    for (int at = 1; at < SESSIONS; at++)
        open_session();
    printf("bytes_open %zu\n", (held() - before) / SESSIONS);
    for (int at = 0; at < SESSIONS; at++)
        flowc_host_turn(&host, first + at, 1000000);
    printf("bytes_ended %zu\n", (held() - before) / SESSIONS);
}

static void measure_times(void) {
    measure("check", check, 1000);
    measure("compile", compile, 1000);
    measure("open_close", open_and_close, 2000);
    measure("turn", turn, 100000);
    flowc_host_turn(&host, session, 1000000);
    measure("view", view, 10000);
    measure("session", open_turn_view_close, 1000);
}

int main(int count, char **paths) {
    if (count != 4 && count != 5)
        return 2;
    hierarchy_size = read_file(paths[1], hierarchy);
    source_size = read_file(paths[2], source);
    world_size = read_file(paths[3], world);
    compile();
    if (flowc_host_new(&host) != FLOWC_DONE || open_session().status != FLOWC_DONE)
        return 1;
    printf("module_bytes %zu\n", module_size);
    if (count == 4)
        measure_times();
    flowc_host_free(&host);
    if (flowc_host_new(&host) != FLOWC_DONE)
        return 1;
    measure_memory();
    flowc_host_free(&host);
    return 0;
}
