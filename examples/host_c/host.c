/* A host with the modules of two parties: runs them by turns, and prints what each principal sees. Run it at the top of the repository. */
#include <flowc.h>
#include <inttypes.h>
#include <stdio.h>
#include <string.h>

enum { ROOM = 16384 };

/* A party's module, the text of its listing, and its session. */
struct party {
    const char *name;
    uint8_t module[ROOM];
    size_t module_size;
    char listing[ROOM];
    uint64_t id;
};

/* Reads examples/NAME/FILE. */
static size_t read_file(const char *name, const char *file, uint8_t *out) {
    char path[256];
    snprintf(path, sizeof path, "examples/%s/%s", name, file);
    FILE *opened = fopen(path, "rb");
    if (!opened)
        return 0;
    size_t size = fread(out, 1, ROOM, opened);
    fclose(opened);
    return size;
}

/* Compiles the module of a party, and opens a session of it on a world. */
static int open_session(flowc_host *host, struct party *party, const char *source, const char *world) {
    static uint8_t hierarchy[ROOM], text[ROOM];
    uint8_t words[FLOWC_WORDS];
    size_t hierarchy_size = read_file(party->name, "hierarchy.txt", hierarchy);
    size_t size = read_file(party->name, source, text);
    flowc_outcome outcome = flowc_compile(hierarchy, hierarchy_size, text, size, party->module, ROOM);
    if (outcome.status != FLOWC_DONE)
        return 0;
    party->module_size = outcome.length;
    outcome = flowc_list(party->module, party->module_size, (uint8_t *)party->listing, ROOM - 1);
    if (outcome.status != FLOWC_DONE)
        return 0;
    size = read_file(party->name, world, text);
    flowc_answer answer = flowc_host_open(host, party->module, party->module_size, text, size, words, sizeof words);
    party->id = answer.id;
    return answer.status == FLOWC_DONE;
}

/* Prints the name of a channel: the second word of its line, which is the first of the listing for channel 0, and so on. */
static void print_channel(const char *listing, uint32_t channel) {
    while (channel--)
        listing = strchr(listing, '\n') + 1;
    const char *name = strchr(listing, ' ') + 1;
    printf(" %.*s", (int)(strchr(name, ' ') - name), name);
}

/* Prints what a principal sees of the session of a party. */
static void print_view(flowc_host *host, const struct party *party, const char *principal) {
    flowc_pair pairs[64];
    uint32_t number = flowc_principal(party->module, party->module_size, (const uint8_t *)principal, strlen(principal));
    flowc_answer view = flowc_host_view(host, party->id, number, pairs, 64);
    printf("%s: %s sees", party->name, principal);
    for (size_t at = 0; view.status == FLOWC_DONE && at < view.length; at++) {
        print_channel(party->listing, pairs[at].channel);
        printf(" %" PRId32, pairs[at].number);
    }
    puts("");
}

int main(void) {
    static struct party payroll = {.name = "payroll"}, survey = {.name = "survey"};
    static const char *const runs[] = {"running", "finished", "threw", "deep", "out of memory"};
    uint8_t words[FLOWC_WORDS];
    flowc_host host = {0};
    if (flowc_host_new(&host) != FLOWC_DONE)
        return 3;
    if (!open_session(&host, &payroll, "payroll.flow", "november.txt") || !open_session(&host, &survey, "survey.flow", "spring.txt")) {
        flowc_host_free(&host);
        return 1;
    }

    flowc_answer first, second;
    do {
        first = flowc_host_turn(&host, payroll.id, 5);
        second = flowc_host_turn(&host, survey.id, 5);
    } while (first.run == FLOWC_RUNNING || second.run == FLOWC_RUNNING);
    printf("payroll: %s\nsurvey: %s\n", runs[first.run], runs[second.run]);
    print_view(&host, &payroll, "Office");
    print_view(&host, &payroll, "Staff");
    print_view(&host, &survey, "Institute");
    print_view(&host, &survey, "Ann");

    flowc_answer answer = flowc_host_open(&host, (const uint8_t *)"no module", 9, NULL, 0, words, sizeof words);
    printf("a stranger's bytes: %zu: %u %.*s\n", answer.offset, (unsigned)answer.number, (int)answer.length, (const char *)words);
    flowc_host_free(&host);
    return 0;
}
