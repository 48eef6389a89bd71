/* Answers lines as hipac-live does, by the library: the same words of the command line, the same bytes, the same status.

   session [--workers N] [--tree] [--text] [--checked] [--script FILE] */
#define _POSIX_C_SOURCE 200809L
#include "hipac.h"
#include <stdio.h>
#include <stdlib.h>
#include <string.h>

static hipac_base base = HIPAC_NONE;

/* Reads a stream to its end, up to one byte more than a script may have. */
static uint8_t *whole(FILE *file, size_t *length) {
    uint8_t *bytes = malloc(1048577);
    if (!file || !bytes)
        exit((fputs("the script's file can't be read\n", stderr), 3));
    *length = fread(bytes, 1, 1048577, file);
    fclose(file);
    return bytes;
}

/* Writes an answer, and ends the program where no more lines are answered. */
static void put(int32_t status, const uint8_t *answer, size_t length, int is_script) {
    fwrite(answer, 1, length, stdout);
    if (status == HIPAC_MEMORY)
        fputs("fault F1\n", stderr);
    if (status == HIPAC_OK || (status == HIPAC_REFUSED && !is_script))
        return;
    hipac_close(&base);
    exit(status == HIPAC_MEMORY ? 4 : status == HIPAC_REFUSED ? 2 : 9);
}

static void answer_script(const uint8_t *script, size_t script_length, uint32_t options) {
    const uint8_t *answer;
    size_t length;
    int32_t status = hipac_open(script, script_length, options, &base, &answer, &length);
    put(status, answer, length, 1);
}

static void answer_line(const char *line, size_t line_length) {
    const uint8_t *answer;
    size_t length;
    int32_t status = hipac_line(&base, (const uint8_t *)line, line_length, &answer, &length);
    put(status, answer, length, 0);
}

static uint32_t option_of(const char *word) {
    return !strcmp(word, "--tree") ? HIPAC_TREE : !strcmp(word, "--text") ? HIPAC_TEXT
         : !strcmp(word, "--checked") ? HIPAC_CHECKED : 0;
}

int main(int count, char **words) {
    uint32_t options = 0;
    const char *script = NULL;
    for (int at = 1; at < count; at++)
        if (!strcmp(words[at], "--workers"))
            at++;
        else if (!strcmp(words[at], "--script"))
            script = words[++at];
        else
            options |= option_of(words[at]);
    char *line = NULL;
    size_t room = 0, script_length = 0;
    ssize_t length;
    if (script) {
        uint8_t *bytes = whole(fopen(script, "rb"), &script_length);
        answer_script(bytes, script_length, options);
        free(bytes);
    }
    for (int number = 0; (length = getdelim(&line, &room, '\n', stdin)) > 0; number++) {
        if (line[length - 1] == '\n')
            length--;
        if (!script && number == 0)
            answer_script((const uint8_t *)line, length, options);
        else
            answer_line(line, length);
    }
    free(line);
    hipac_close(&base);
    return 0;
}
