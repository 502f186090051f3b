/* Whether a stored visible part may be shown for a new edition: keep NAME OLD-LIBRARY OLD-TEXT NEW-LIBRARY NEW-TEXT. The part of module NAME is
 * that of the old edition; a library may be an empty file. The program follows docs/CACHE.md: it decides, asks the modules that must be asked
 * first, and prints what is to be done. It ends with 0 where the part is kept, and with 1 where NAME must be asked. */
#include "asf.h"

#include <stdio.h>
#include <string.h>

struct text {
    uint8_t bytes[ASF_TEXT_BYTES + 1]; /* one byte more than a text may have is enough to be refused */
    size_t length;
};

static struct text old_library, old_text, new_library, new_text;
static uint32_t work[ASF_MEMORY_WORDS];
static uint8_t out[65536];

static int read_text(const char *path, struct text *text) {
    FILE *file = fopen(path, "rb");
    if (!file) return 0;
    text->length = fread(text->bytes, 1, sizeof text->bytes, file);
    fclose(file);
    return 1;
}

/* The number with which the new edition answers a module. */
static uint32_t ask(const uint8_t *name, size_t length) {
    size_t values[ASF_VALUES];
    uint8_t names[ASF_NAMES];
    return asf_normalise(name, length, new_library.bytes, new_library.length, new_text.bytes, new_text.length, work, ASF_MEMORY_WORDS, out,
                         sizeof out, values, ASF_VALUES, names, ASF_NAMES);
}

/* Asks the modules that a decision tells. Only 0 will do: 18 and 19 say nothing of a module. */
static int all_accepted(const size_t *values) {
    for (uint32_t k = 0; k < 64; k++) {
        if ((values[k < 32 ? ASF_DECISION_LOW : ASF_DECISION_HIGH] >> (k % 32) & 1) == 0) continue;
        uint8_t name[ASF_NAME_BYTES];
        size_t length = asf_module_name(new_library.bytes, new_library.length, new_text.bytes, new_text.length, k, work, ASF_MEMORY_WORDS,
                                        name, sizeof name);
        uint32_t number = ask(name, length);
        printf("%.*s asked: %u\n", (int)length, (const char *)name, (unsigned)number);
        if (number != 0) return 0;
    }
    return 1;
}

static void print_reason(const size_t *values, const uint8_t *names) {
    printf("reason %zu, module %.*s, name %.*s\n", values[ASF_DECISION_REASON], (int)values[ASF_DECISION_BY_LENGTH],
           (const char *)names + ASF_DECISION_BY, (int)values[ASF_DECISION_NAME_LENGTH], (const char *)names + ASF_DECISION_NAME);
}

static void print_unread(const size_t *values) {
    printf("%zu at byte %zu of the %s %s\n", values[ASF_DECISION_NUMBER], values[ASF_DECISION_AT],
           values[ASF_DECISION_IN_NEW] ? "new" : "old", values[ASF_DECISION_IN_LIBRARY] ? "library" : "text");
}

int main(int count, char **words) {
    if (count != 6 || !read_text(words[2], &old_library) || !read_text(words[3], &old_text) || !read_text(words[4], &new_library) ||
        !read_text(words[5], &new_text)) {
        fprintf(stderr, "usage: keep NAME OLD-LIBRARY OLD-TEXT NEW-LIBRARY NEW-TEXT\n");
        return 2;
    }
    size_t values[ASF_DECISION_VALUES];
    uint8_t names[ASF_DECISION_NAMES];
    uint32_t number = asf_decide((const uint8_t *)words[1], strlen(words[1]), old_library.bytes, old_library.length, old_text.bytes,
                                 old_text.length, new_library.bytes, new_library.length, new_text.bytes, new_text.length, work,
                                 ASF_MEMORY_WORDS, values, ASF_DECISION_VALUES, names, ASF_DECISION_NAMES);
    if (number == ASF_KEEP_AFTER && all_accepted(values)) {
        printf("keep the part of %s\n", words[1]);
        return 0;
    }
    if (number == ASF_ASK_AGAIN) print_reason(values, names);
    if (number == ASF_NOT_READ) print_unread(values);
    printf("ask %s\n", words[1]);
    return 1;
}
