#include "lent.h"

#include <stdio.h>
#include <stdlib.h>
#include <string.h>

enum { GUARD = 64, MOST_PIECES = 8 };

struct piece {
    const char *name;
    enum role role;
    size_t size;
    unsigned char *block;  /* guard, contents, guard */
    unsigned char *before; /* the contents before the call */
};

static struct piece pieces[MOST_PIECES];
static size_t piece_count;

/* Differs from place to place, so that bytes moved within the guard are seen too. */
static unsigned char guard_byte(size_t place)
{
    return (unsigned char)(0xC3u ^ (place * 37u));
}

static void *allocate(size_t size)
{
    void *memory = malloc(size);
    if (memory == NULL) {
        fprintf(stderr, "no memory left to lend\n");
        exit(1);
    }
    return memory;
}

void *lend(enum role role, const char *name, const void *contents, size_t size)
{
    if (piece_count == MOST_PIECES) {
        fprintf(stderr, "too many pieces of memory for %s\n", name);
        exit(1);
    }
    struct piece *piece = &pieces[piece_count++];
    piece->name = name;
    piece->role = role;
    piece->size = size;
    piece->block = allocate(GUARD + size + GUARD);
    piece->before = allocate(size + 1);
    for (size_t i = 0; i < GUARD; i++) {
        piece->block[i] = guard_byte(i);
        piece->block[GUARD + size + i] = guard_byte(GUARD + i);
    }
    memcpy(piece->before, contents, size);
    memcpy(piece->block + GUARD, contents, size);
    return piece->block + GUARD;
}

void *lend_output(const char *name, size_t size)
{
    unsigned char pattern[sizeof(int64_t)];
    memset(pattern, 0xA5, sizeof pattern);
    return lend(OUTPUT, name, pattern, size);
}

void give_back(void)
{
    for (size_t i = 0; i < piece_count; i++) {
        free(pieces[i].block);
        free(pieces[i].before);
    }
    piece_count = 0;
}

static int guard_holds(const unsigned char *guard, size_t first)
{
    for (size_t i = 0; i < GUARD; i++)
        if (guard[i] != guard_byte(first + i))
            return 0;
    return 1;
}

static const char *breach_of(const struct piece *piece, uint8_t refusal)
{
    if (!guard_holds(piece->block, 0))
        return "written before its start";
    if (!guard_holds(piece->block + GUARD + piece->size, GUARD))
        return "written past its end";
    if (memcmp(piece->block + GUARD, piece->before, piece->size) == 0)
        return NULL;
    if (piece->role == INPUT)
        return "changed, though only lent for reading";
    if (piece->role == OUTPUT && refusal != 0)
        return "written on a refusal";
    return NULL;
}

const char *breach(uint8_t refusal, const char **name)
{
    for (size_t i = 0; i < piece_count; i++) {
        const char *wrong = breach_of(&pieces[i], refusal);
        if (wrong != NULL) {
            *name = pieces[i].name;
            return wrong;
        }
    }
    return NULL;
}
