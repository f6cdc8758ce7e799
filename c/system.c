/*
 * What the program dnw calls of the system beside the C library, on machines for which the toolchain has it not compiled: it has
 * it for x86-64 alone, as c/libos_c.a. No proof covers it, as none covers the system.
 */
#include <errno.h>
#include <stddef.h>
#include <stdint.h>
#include <string.h>

/* The length of a word of the command line; or why it is not copied: there is none with this number, or it is longer. */
enum { NO_WORD = -1, NO_ROOM = -2 };

int rattle_errno(void);
void rattle_set_errno(int number);
ptrdiff_t rattle_arg(size_t number, uint8_t *word, size_t size);

static size_t count;
static char **words;

/* glibc calls this with the words of the command line before `main`. */
__attribute__((constructor)) static void keep(int words_count, char **all)
{
    count = (size_t)words_count;
    words = all;
}

int rattle_errno(void)
{
    return errno;
}

void rattle_set_errno(int number)
{
    errno = number;
}

ptrdiff_t rattle_arg(size_t number, uint8_t *word, size_t size)
{
    if (number >= count || words[number] == NULL)
        return NO_WORD;
    size_t len = strlen(words[number]);
    if (len > size)
        return NO_ROOM;
    memcpy(word, words[number], len);
    return (ptrdiff_t)len;
}
