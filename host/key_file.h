/* The key that a file holds, for the host programs that take --key FILE: every byte of the file, a line end at its end too. An empty file is the
 * empty key. */
#ifndef KEY_FILE_H
#define KEY_FILE_H

#include <stdbool.h>
#include <stdint.h>

#include "plain_c.h"

enum { LONGEST_KEY = 65536 }; /* the library takes keys of every length; a larger file was hardly meant for one, and is told */

static uint8_t key[LONGEST_KEY + 1]; /* one byte more than a key, so that a larger file is seen */
static size_t key_length;

/* Reads the key. Answers none, or what is wrong, in words that follow the file's name. A folder opens as a file does: only reading tells. */
static const char *read_key(const char *path) {
    FILE *f = fopen(path, "rb");
    if (!f)
        return "cannot be opened";
    key_length = fread(key, 1, sizeof key, f);
    bool unread = ferror(f);
    fclose(f);
    return unread ? "cannot be read" : key_length > LONGEST_KEY ? "has more than 65536 bytes" : 0;
}

/* The empty key is one, and is used; but a file that is empty by mishap would make codes that all the world can make. */
static void tell_empty_key(const char *program, const char *path) {
    if (key_length == 0)
        fprintf(stderr, "%s: the key file '%s' is empty: that is a key, and everyone has it\n", program, path);
}

/* Clears the key once it has done its work. By volatile, since a compiler may leave out a write that nothing reads after it. */
static void forget_key(void) {
    for (size_t i = 0; i < sizeof key; i++)
        ((volatile uint8_t *)key)[i] = 0;
    key_length = 0;
}

#endif
