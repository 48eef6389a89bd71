/* The order desk in the program's own process: reads the rules of examples/orders, and answers a few orders.
   Usage: desk RULES
   gcc desk.c $(pkg-config --cflags --libs hipac) makes it; docs/EMBEDDING.md has more. */
#include "hipac.h"
#include <stdio.h>
#include <stdlib.h>
#include <string.h>

static hipac_base base = HIPAC_NONE;

/* Writes an answer, and ends the program where there is none. */
static void put(int32_t status, const uint8_t *answer, size_t length) {
    if (status != HIPAC_OK && status != HIPAC_REFUSED) {
        fprintf(stderr, "desk: status %d\n", (int)status);
        exit(1);
    }
    fwrite(answer, 1, length, stdout);
}

static void ask(const char *line) {
    const uint8_t *answer;
    size_t length;
    printf("> %s\n", line);
    int32_t status = hipac_line(&base, (const uint8_t *)line, strlen(line), &answer, &length);
    put(status, answer, length);
}

int main(int argc, char **argv) {
    static uint8_t script[1 << 20];
    const uint8_t *answer;
    size_t length;
    FILE *rules = argc == 2 ? fopen(argv[1], "rb") : NULL;
    if (!rules) return fputs("usage: desk RULES\n", stderr), 2;
    size_t read = fread(script, 1, sizeof script, rules);
    fclose(rules);
    int32_t status = hipac_open(script, read, HIPAC_TEXT, &base, &answer, &length);
    put(status, answer, length);
    ask("transaction { create product(7) set name = \"desk lamp\", stock = 5, low = 2, awaited = false }");
    ask("transaction { create order(1) set product = 7, count = 2, state = \"open\", reminded = false }");
    ask("transaction { create order(2) set product = 7, count = 2, state = \"open\", reminded = false }");
    ask("transaction { create order(3) set product = 7, count = 2, state = \"open\", reminded = false }");
    ask("transaction { update order(1) set state = \"shipped\" }");
    ask("transaction { update order(1) set state = \"paid\" }");
    printf("> show\n");
    status = hipac_show(&base, &answer, &length);
    put(status, answer, length);
    hipac_close(&base);
    return 0;
}
