/* Compiles a source, and has another one refused. */
#include <flowc.h>
#include <stdio.h>
#include <string.h>

static const char *hierarchy = "principal Alice, Bob;\n";

static flowc_outcome compile(const char *source, uint8_t *out, size_t out_size) {
    return flowc_compile((const uint8_t *)hierarchy, strlen(hierarchy), (const uint8_t *)source, strlen(source), out, out_size);
}

int main(void) {
    uint8_t out[4096];
    flowc_outcome outcome = flowc_version(out, sizeof out);
    printf("%.*s\n", (int)outcome.length, (const char *)out);

    outcome = compile("output{Alice:} a; void main() { int x = 1; send a, x; }\n", out, sizeof out);
    if (outcome.status != FLOWC_DONE)
        return 1;
    printf("a module of %zu bytes\n", outcome.length);

    outcome = compile("output{} a; input{Alice:} b; void main() throws (End{Alice:}) { int x = receive b; send a, x; }\n", out, sizeof out);
    if (outcome.status != FLOWC_REFUSED)
        return 1;
    printf("%zu:%zu: %u %.*s\n", outcome.line, outcome.column, (unsigned)outcome.number, (int)outcome.length, (const char *)out);
    return 0;
}
