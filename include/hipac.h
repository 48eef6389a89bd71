/* A rule base in the process of the program. Link with libhipac.a or libhipac.so.

   docs/LIVE.md describes scripts, lines and answers: they are those of hipac-live.

   What a caller owes:
   - A handle begins as {0} (HIPAC_NONE), is never copied, and is written by the library alone.
   - There is one call at a time with each handle, and all calls with it come from one thread.
   - No pointer is null, also where its length is 0, and what they point to doesn't overlap.
   - A line, and the name of a class, doesn't lie in an answer of the base that it is for.
   - malloc, realloc and free are those of one allocator, and align a block as C requires.
   - No call is made from a signal handler, or in the forked child of a process with threads.
   An answer's bytes lie at their pointer until the next call with that handle, which may free them. They belong to the
   base, aren't written by the caller, and don't end with a zero byte. */
#ifndef HIPAC_H
#define HIPAC_H
#include <stddef.h>
#include <stdint.h>

#ifdef __cplusplus
extern "C" {
#endif

/* A base, or none where `at` is null. */
typedef struct { void *at; } hipac_base;
#define HIPAC_NONE {0}

/* Statuses. */
enum {
    HIPAC_OK = 0,      /* done: an item or a script ran, or what was asked for is shown */
    HIPAC_REFUSED = 1, /* the line or the script is wrong; the answer says why, and nothing of it has happened */
    HIPAC_MEMORY = 2,  /* there is no memory; after this in a line the base answers nothing more */
    HIPAC_CLOSED = 3,  /* the handle has no base, or its script was refused */
    HIPAC_UNKNOWN = 4  /* an option isn't known */
};

/* Options of hipac_open, which may be added. */
enum {
    HIPAC_TREE = 1,   /* answers also show what each transaction did */
    HIPAC_TEXT = 2,   /* the script and the lines are text in the notation, and not JSON */
    HIPAC_CHECKED = 4 /* what could ever end with A3, A6 or A7 is refused, the script too */
};

/* Opens a base by its script, which may have many lines, and answers the script. A base that `base` has is closed
   first. After HIPAC_REFUSED the base has the answer and nothing else; after HIPAC_MEMORY and HIPAC_UNKNOWN there is
   no base, `*answer` is null and `*length` is 0. */
int32_t hipac_open(const uint8_t *script, size_t script_length, uint32_t options, hipac_base *base,
                   const uint8_t **answer, size_t *length);

/* Answers a line, which is given without the line feed that ends it. The answer is what hipac-live writes for it. A
   line feed inside is part of the line, as in a script's file; hipac-live would cut the line there. After HIPAC_MEMORY
   `*answer` is null and `*length` is 0; some of what the line asks for may have happened, and the base is only there to
   be closed. After HIPAC_CLOSED there is no answer either: `*length` is 0. */
int32_t hipac_line(hipac_base *base, const uint8_t *line, size_t line_length, const uint8_t **answer, size_t *length);

/* Answers the line that asks for the whole state: ["show"], or show in the notation. */
int32_t hipac_show(hipac_base *base, const uint8_t **answer, size_t *length);

/* Answers the line that asks for one object, ["show","CLASS",KEY]. It is read as JSON also where the other lines are
   text, since the notation has no such line; so a refusal of it is one of JSON, too. The name of the class stands in
   the line as it is given. The answer has the object's line, if the object exists, and then the line `ok N`. */
int32_t hipac_get(hipac_base *base, const uint8_t *class_name, size_t class_length, int64_t key,
                  const uint8_t **answer, size_t *length);

/* The answer to the last line again, with HIPAC_OK, or HIPAC_MEMORY where memory ran out. */
int32_t hipac_again(hipac_base *base, const uint8_t **answer, size_t *length);

/* Closes the base, and frees all that it has. `base` is as at the beginning, and may be opened again. */
void hipac_close(hipac_base *base);

/* The version of these functions: 1. */
uint32_t hipac_version(void);

#ifdef __cplusplus
}
#endif
#endif
