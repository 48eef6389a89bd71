/* Calls each function of hipac.h, and checks the statuses and the answers.

   calls functions               every function, each twice, in both notations; lines that are wrong, empty, too long
   calls lines COUNT KIB         so many lines, of which the last nine tenths add at most so many KiB to the memory
   calls threads BASES THREADS   so many bases at once, so many to a thread
   calls refuse                  malloc and realloc refuse each allocation in turn; with --wrap, below

   The status is 0 if all is as it is to be; otherwise a line says what isn't.

   `calls refuse` needs a program that is linked with --wrap=malloc,--wrap=realloc,--wrap=free. */
#include "hipac.h"
#include <pthread.h>
#include <stdio.h>
#include <stdlib.h>
#include <string.h>
#include <unistd.h>

#define MOST 1048576

static const char SCRIPT[] =
    "{\"version\":1,\"classes\":[[\"acct\",[[\"bal\",\"int\"]]],[\"seen\",[[\"sum\",\"int\"]]]],\n"
    "\"rules\":[[\"note\",[\"update\",\"acct\"],\"immediate\",[],\"immediate\",[[\"with\",\"s\",\"seen\",1,"
    "[[\"update\",\"seen\",1,[[\"sum\",[\"+\",[\"of\",\"s\",\"sum\"],[\"-\",[\"new\",0,\"bal\"],[\"old\",0,\"bal\"]]]]]]]]]]],\n"
    "\"items\":[[\"tx\",[[\"install\",\"note\"],[\"create\",\"acct\",1,[[\"bal\",0]]],"
    "[\"create\",\"seen\",1,[[\"sum\",0]]]]]]}";

static const char TEXT[] =
    "version 1\n# an account, and a rule that keeps a sum\nclass acct { bal: int } class seen { sum: int }\n"
    "rule note on update acct do { with seen(1) as s { update seen(1) set sum = s.sum + (new.bal - old.bal) } }\n"
    "transaction { install note create acct(1) set bal = 0 create seen(1) set sum = 0 }\n";

struct told { const uint8_t *answer; size_t length; int32_t status; };

static const void *bytes(const char *text) { return text; }

static void fail(const char *what, const struct told *found, int32_t status, const char *wanted) {
    fprintf(stderr, "FAILED %s: status %d, and not %d; answer '%.*s', and not '%s'\n", what, (int)found->status,
            (int)status, (int)(found->length < 300 ? found->length : 300),
            found->answer ? (const char *)found->answer : "", wanted ? wanted : "");
    exit(1);
}

/* Checks a status and an answer. No answer is wanted where `wanted` is null. */
static void expect(const char *what, struct told found, int32_t status, const char *wanted) {
    size_t length = wanted ? strlen(wanted) : 0;
    if (found.status != status || found.length != length || (length && memcmp(found.answer, wanted, length)))
        fail(what, &found, status, wanted);
    if (!wanted && status != HIPAC_CLOSED && found.answer)
        fail(what, &found, status, "a null pointer");
}

/* What a call leaves where it writes nothing. */
static struct told nothing(void) {
    struct told told = {(const uint8_t *)"untouched", 9, -1};
    return told;
}

static struct told opened(hipac_base *base, const void *script, size_t length, uint32_t options) {
    struct told told = nothing();
    told.status = hipac_open(script, length, options, base, &told.answer, &told.length);
    return told;
}

static struct told line_of(hipac_base *base, const void *line, size_t length) {
    struct told told = nothing();
    told.status = hipac_line(base, line, length, &told.answer, &told.length);
    return told;
}

static struct told line(hipac_base *base, const char *text) { return line_of(base, text, strlen(text)); }

static struct told shown(hipac_base *base) {
    struct told told = nothing();
    told.status = hipac_show(base, &told.answer, &told.length);
    return told;
}

static struct told got(hipac_base *base, const char *class_name, int64_t key) {
    struct told told = nothing();
    told.status = hipac_get(base, bytes(class_name), strlen(class_name), key, &told.answer, &told.length);
    return told;
}

static struct told again(hipac_base *base) {
    struct told told = nothing();
    told.status = hipac_again(base, &told.answer, &told.length);
    return told;
}

/* A line in each notation that sets the balance. */
static void update(char *to, int is_text, long balance) {
    if (is_text)
        sprintf(to, "transaction { update acct(1) set bal = %ld }", balance);
    else
        sprintf(to, "[\"tx\",[[\"update\",\"acct\",1,[[\"bal\",%ld]]]]]", balance);
}

/* ---- every function */

static void closed_handle(hipac_base *base) {
    for (int time = 0; time < 2; time++) {
        expect("a line to no base", line(base, "[\"show\"]"), HIPAC_CLOSED, NULL);
        expect("show of no base", shown(base), HIPAC_CLOSED, NULL);
        expect("get of no base", got(base, "acct", 1), HIPAC_CLOSED, NULL);
        expect("again of no base", again(base), HIPAC_CLOSED, NULL);
        hipac_close(base);
    }
}

/* A base whose script was refused has its refusal, and answers nothing. */
static void refused_script(hipac_base *base, const void *script, size_t length, uint32_t options, const char *refusal) {
    for (int time = 0; time < 2; time++) {
        expect("a refused script", opened(base, script, length, options), HIPAC_REFUSED, refusal);
        expect("its refusal again", again(base), HIPAC_OK, refusal);
        expect("a line after it", line(base, "[\"show\"]"), HIPAC_CLOSED, NULL);
        expect("show after it", shown(base), HIPAC_CLOSED, NULL);
        expect("get after it", got(base, "acct", 1), HIPAC_CLOSED, NULL);
    }
}

static void wrong_scripts(hipac_base *base) {
    static char longest[MOST + 1];
    refused_script(base, "", 0, 0, "refused S1\n");
    refused_script(base, "", 0, HIPAC_TEXT, "refused S1 1:1\n");
    refused_script(base, "\xff\x00{", 3, 0, "refused S1\n");
    refused_script(base, "\xff\x00{", 3, HIPAC_TEXT, "refused S1 1:1\n");
    refused_script(base, SCRIPT, strlen(SCRIPT) - 1, 0, "refused S1\n");
    refused_script(base, SCRIPT, strlen(SCRIPT), HIPAC_TEXT, "refused S1 1:1\n");
    refused_script(base, TEXT, strlen(TEXT), 0, "refused S1\n");
    refused_script(base, "{\"version\":9}", 13, 0, "refused S2 /\n");
    memset(longest, ' ', sizeof longest);
    memcpy(longest, SCRIPT, strlen(SCRIPT));
    expect("the longest script", opened(base, longest, MOST, 0), HIPAC_OK, "unit 1 committed\nok 1\n");
    refused_script(base, longest, MOST + 1, 0, "refused S5 size\n");
    for (uint32_t options = 8; options; options <<= 1)
        for (int time = 0; time < 2; time++) {
            expect("unknown options", opened(base, SCRIPT, strlen(SCRIPT), options | 1), HIPAC_UNKNOWN, NULL);
            expect("a line after it", line(base, "[\"show\"]"), HIPAC_CLOSED, NULL);
        }
}

static void wrong_lines(hipac_base *base, int is_text) {
    static char longest[MOST + 1];
    const char *empty = is_text ? "refused S1 1:1\n" : "refused S1\n";
    char text[200];
    for (int time = 0; time < 2; time++) {
        expect("an empty line", line(base, ""), HIPAC_REFUSED, empty);
        expect("its refusal again", again(base), HIPAC_OK, empty);
        expect("a zero byte", line_of(base, "\0", 1), HIPAC_REFUSED, empty);
        expect("no UTF-8", line_of(base, "\xff", 1), HIPAC_REFUSED, empty);
        expect("a line that is cut off", line(base, is_text ? "transaction {" : "[\"tx\",["), HIPAC_REFUSED,
               is_text ? "refused S1 1:14\n" : "refused S1\n");
        expect("no such field", line(base, is_text ? "transaction { update acct(1) set stok = 1 }"
                                                   : "[\"tx\",[[\"update\",\"acct\",1,[[\"stok\",1]]]]]"),
               HIPAC_REFUSED, is_text ? "refused S4 1:34\n" : "refused S4 /1/0/3/0/0\n");
        memset(longest, ' ', sizeof longest);
        update(text, is_text, 4);
        memcpy(longest, text, strlen(text));
        expect("a line over the limit", line_of(base, longest, MOST + 1), HIPAC_REFUSED, "refused S5 size\n");
    }
    expect("a line at the limit", line_of(base, longest, MOST), HIPAC_OK, "unit 3 committed\nok 3\n");
}

static const char *const STATE = "object acct 1 bal=4\nobject seen 1 sum=4\nrule note enabled\nok 3\n";

static const char *const TREE =
    "unit 1 committed\n  op install note\n  op create acct 1 bal=0\n  op create seen 1 sum=0\nok 1\n";

static void every_function(hipac_base *base, uint32_t options) {
    int is_text = !!(options & HIPAC_TEXT);
    const char *script = is_text ? TEXT : SCRIPT;
    char text[200];
    expect("a script", opened(base, script, strlen(script), options), HIPAC_OK,
           options & HIPAC_TREE ? TREE : "unit 1 committed\nok 1\n");
    if (options & HIPAC_TREE)
        return;
    update(text, is_text, 3);
    expect("a line", line(base, text), HIPAC_OK, "unit 2 committed\nok 2\n");
    expect("its answer again", again(base), HIPAC_OK, "unit 2 committed\nok 2\n");
    wrong_lines(base, is_text);
    for (int time = 0; time < 2; time++) {
        expect("show", shown(base), HIPAC_OK, STATE);
        expect("the state again", again(base), HIPAC_OK, STATE);
        expect("show as a line", line(base, is_text ? "show" : "[\"show\"]"), HIPAC_OK, STATE);
        expect("get", got(base, "acct", 1), HIPAC_OK, "object acct 1 bal=4\nok 3\n");
        expect("get of none", got(base, "acct", INT64_MIN), HIPAC_OK, "ok 3\n");
        expect("get of no class", got(base, "nobody", 1), HIPAC_REFUSED, "refused S4 /1\n");
        expect("get of what is no name", got(base, "\"", 1), HIPAC_REFUSED, "refused S1\n");
    }
    for (int time = 0; time < 2; time++)
        expect("a move of the clock", line(base, is_text ? "clock 9" : "[\"clock\",9]"), HIPAC_OK, "ok 3\n");
    expect("the clock back", line(base, is_text ? "clock 8" : "[\"clock\",8]"), HIPAC_REFUSED,
           is_text ? "refused S2 1:7\n" : "refused S2 /1\n");
}

/* A rule that adds 1 to what a signal has. */
static const char ADDS[] =
    "version 1 rule adds on signal go do { emit event.arg(0) + 1 } transaction { install adds }";

/* What a checked base refuses runs in another. */
static void checked(hipac_base *base) {
    static const char NEGATES[] = "version 1 transaction { emit -\"a\" }";
    static const char ENDLESS[] = "version 1 class c {} rule r on create c do { create c(1) }";
    const char *wrong = "transaction { emit 1 signal go(\"a\") }";
    expect("a script", opened(base, ADDS, strlen(ADDS), HIPAC_TEXT), HIPAC_OK, "unit 1 committed\nok 1\n");
    expect("a wrong argument", line(base, wrong), HIPAC_OK, "unit 2 committed\nemit 1\nok 2\n");
    expect("a script", opened(base, ADDS, strlen(ADDS), HIPAC_TEXT | HIPAC_CHECKED), HIPAC_OK,
           "unit 1 committed\nok 1\n");
    expect("a wrong argument, checked", line(base, wrong), HIPAC_REFUSED, "refused S8 kinds /1/1/2/0\n");
    expect("its refusal again", again(base), HIPAC_OK, "refused S8 kinds /1/1/2/0\n");
    expect("an argument", line(base, "transaction { signal go(6) }"), HIPAC_OK, "unit 2 committed\nemit 7\nok 2\n");
    expect("get", got(base, "acct", 1), HIPAC_REFUSED, "refused S4 /1\n");
    expect("show", shown(base), HIPAC_OK, "rule adds enabled\nok 2\n");
    refused_script(base, NEGATES, strlen(NEGATES), HIPAC_TEXT | HIPAC_CHECKED, "refused S8 kinds unit 1 /0/1/1\n");
    refused_script(base, ENDLESS, strlen(ENDLESS), HIPAC_TEXT | HIPAC_CHECKED, "refused S8 depth\n");
    refused_script(base, "{", 1, HIPAC_CHECKED, "refused S1\n");
}

static void functions(void) {
    hipac_base base = HIPAC_NONE;
    if (hipac_version() != 1 || hipac_version() != 1)
        exit((fputs("FAILED the version isn't 1\n", stderr), 1));
    closed_handle(&base);
    wrong_scripts(&base);
    checked(&base);
    for (uint32_t options = 0; options < 8; options++) {
        /* Opened again over a base that is there, and over none. */
        every_function(&base, options);
        every_function(&base, options);
        hipac_close(&base);
        closed_handle(&base);
    }
}

/* ---- many lines */

static long resident(void) {
    long whole = 0, pages = 0;
    FILE *file = fopen("/proc/self/statm", "r");
    if (!file || fscanf(file, "%ld %ld", &whole, &pages) != 2)
        exit((fputs("FAILED the memory isn't known\n", stderr), 1));
    fclose(file);
    return pages * sysconf(_SC_PAGESIZE) / 1024;
}

static void many(hipac_base *base, int is_text, long first, long stop) {
    char text[200], wanted[100];
    for (long number = first; number < stop; number++) {
        update(text, is_text, number);
        sprintf(wanted, "unit %ld committed\nok %ld\n", number, number);
        expect(text, line(base, text), HIPAC_OK, wanted);
    }
}

static void lines(long count, long most) {
    for (uint32_t options = 0; options < 4; options += HIPAC_TEXT) {
        hipac_base base = HIPAC_NONE;
        const char *script = options ? TEXT : SCRIPT;
        expect("a script", opened(&base, script, strlen(script), options), HIPAC_OK, "unit 1 committed\nok 1\n");
        many(&base, !!options, 2, count / 10 + 2);
        long before = resident();
        many(&base, !!options, count / 10 + 2, count + 2);
        long after = resident();
        printf("%ld lines: %ld KiB, and before %ld KiB\n", count, after, before);
        if (after > before + most)
            exit((fputs("FAILED the memory has grown\n", stderr), 1));
        hipac_close(&base);
    }
}

/* ---- many bases */

struct work { int bases, number; };

static void *work(void *given) {
    struct work *mine = given;
    hipac_base *bases = calloc(mine->bases, sizeof *bases);
    if (!bases)
        exit(1);
    for (int at = 0; at < mine->bases; at++)
        expect("a script", opened(&bases[at], at % 2 ? TEXT : SCRIPT, strlen(at % 2 ? TEXT : SCRIPT),
                                  at % 2 ? HIPAC_TEXT : 0), HIPAC_OK, "unit 1 committed\nok 1\n");
    for (long round = 2; round < 22; round++)
        for (int at = 0; at < mine->bases; at++)
            many(&bases[at], at % 2, round, round + 1);
    for (int at = 0; at < mine->bases; at++) {
        expect("get", got(&bases[at], "seen", 1), HIPAC_OK, "object seen 1 sum=21\nok 21\n");
        hipac_close(&bases[at]);
    }
    free(bases);
    return NULL;
}

static void threads(int bases, int count) {
    pthread_t running[64];
    struct work works[64];
    for (int at = 0; at < count && at < 64; at++) {
        works[at] = (struct work){bases / count, at};
        if (pthread_create(&running[at], NULL, work, &works[at]))
            exit((fputs("FAILED no thread\n", stderr), 1));
    }
    for (int at = 0; at < count && at < 64; at++)
        pthread_join(running[at], NULL);
}

/* ---- no memory */

#ifdef REFUSES
void *__real_malloc(size_t size);
void *__real_realloc(void *at, size_t size);
void __real_free(void *at);

/* The allocation that is refused, and whether all later ones are, too. */
static long refused = -1, asked;
static int refuses_all;

/* Blocks that aren't free. */
static long kept;

static int is_refused(void) {
    asked++;
    return refused > 0 && (refuses_all ? asked >= refused : asked == refused);
}

void *__wrap_malloc(size_t size) {
    void *at = is_refused() ? NULL : __real_malloc(size);
    kept += at != NULL;
    return at;
}

void *__wrap_realloc(void *at, size_t size) {
    if (is_refused())
        return NULL;
    kept += at == NULL;
    return __real_realloc(at, size);
}

void __wrap_free(void *at) {
    kept -= at != NULL;
    __real_free(at);
}

/* A base, three lines and a question, each with its status or with HIPAC_MEMORY. After HIPAC_MEMORY in a line the base
   answers nothing but that. Says whether memory ran out. */
static int whole_life(hipac_base *base, uint32_t options) {
    static const char *const answers[] = {"unit 2 committed\nok 2\n", "unit 3 committed\nok 3\n",
                                          "unit 4 committed\nok 4\n"};
    int is_text = !!(options & HIPAC_TEXT), is_lost = 0;
    const char *script = is_text ? TEXT : SCRIPT;
    char text[200];
    struct told told = opened(base, script, strlen(script), options);
    if (told.status == HIPAC_MEMORY) {
        expect("no memory for a script", told, HIPAC_MEMORY, NULL);
        expect("a line after it", line(base, "[\"show\"]"), HIPAC_CLOSED, NULL);
        return 1;
    }
    expect("a script", told, HIPAC_OK, "unit 1 committed\nok 1\n");
    for (int at = 0; at < 3; at++) {
        update(text, is_text, at);
        told = line(base, text);
        is_lost |= told.status == HIPAC_MEMORY;
        expect(text, told, is_lost ? HIPAC_MEMORY : HIPAC_OK, is_lost ? NULL : answers[at]);
        expect("again", again(base), is_lost ? HIPAC_MEMORY : HIPAC_OK, is_lost ? NULL : answers[at]);
    }
    told = shown(base);
    is_lost |= told.status == HIPAC_MEMORY;
    expect("show", told, is_lost ? HIPAC_MEMORY : HIPAC_OK,
           is_lost ? NULL : "object acct 1 bal=2\nobject seen 1 sum=2\nrule note enabled\nok 4\n");
    told = got(base, "seen", 1);
    is_lost |= told.status == HIPAC_MEMORY;
    expect("get", told, is_lost ? HIPAC_MEMORY : HIPAC_OK, is_lost ? NULL : "object seen 1 sum=2\nok 4\n");
    return is_lost;
}

static void refuse(void) {
    hipac_base base = HIPAC_NONE;
    /* JSON, a text, and a checked text. */
    static const uint32_t ways[] = {0, HIPAC_TEXT, HIPAC_TEXT | HIPAC_CHECKED};
    for (int way = 0; way < 6; way++) {
        refuses_all = way & 1;
        long before = kept, at = 0;
        int is_lost;
        do {
            refused = ++at;
            asked = 0;
            is_lost = whole_life(&base, ways[way >> 1]);
            hipac_close(&base);
            if (kept != before)
                exit((fprintf(stderr, "FAILED refusal %ld leaks %ld blocks\n", at, kept - before), 1));
        } while (asked >= refused);
        if (is_lost)
            exit((fputs("FAILED memory ran out where none was refused\n", stderr), 1));
        printf("%ld allocations refused in turn\n", at - 1);
        refused = -1;
    }
}
#else
static void refuse(void) { exit((fputs("calls: not made with REFUSES\n", stderr), 2)); }
#endif

int main(int count, char **words) {
    if (count == 2 && !strcmp(words[1], "functions"))
        functions();
    else if (count == 4 && !strcmp(words[1], "lines"))
        lines(atol(words[2]), atol(words[3]));
    else if (count == 4 && !strcmp(words[1], "threads"))
        threads(atoi(words[2]), atoi(words[3]));
    else if (count == 2 && !strcmp(words[1], "refuse"))
        refuse();
    else
        return fputs("usage: calls functions | lines COUNT KIB | threads BASES THREADS | refuse\n", stderr), 2;
    return 0;
}
