/* Memory lent to the library: guard bytes around it, and what a call may do with it. */
#ifndef LENT_H
#define LENT_H

#include <stddef.h>
#include <stdint.h>

enum role {
    INPUT,  /* must never change */
    OUTPUT, /* must keep its contents on a refusal */
    MEMORY  /* the caller looks at it itself, whatever happens */
};

/* Lends a copy of the contents. Allocated afresh for each call: such memory takes the type that the
 * library writes, and memory checkers see its ends. */
void *lend(enum role role, const char *name, const void *contents, size_t size);

/* Lends room for one number, with a pattern in it. */
void *lend_output(const char *name, size_t size);

/* What is wrong with lent memory after a call, and its name, or NULL. */
const char *breach(uint8_t refusal, const char **name);

void give_back(void);

#endif
