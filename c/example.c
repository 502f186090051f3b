/* Normalises one module of a specification: example NAME [LIBRARY] < FILE. It prints the visible lines of its normal form, or why it is
 * refused. LIBRARY is a file whose modules count as standing before those of FILE. */
#include "asf.h"

#include <stdio.h>
#include <string.h>

static uint8_t library[ASF_TEXT_BYTES + 1];
static uint8_t text[ASF_TEXT_BYTES + 1];
static uint32_t work[ASF_MEMORY_WORDS];
static uint8_t out[65536];

/* One byte more than a library may have is enough to be refused. */
static int read_library(const char *path, size_t *length) {
    FILE *file = fopen(path, "rb");
    if (!file) return 0;
    *length = fread(library, 1, sizeof library, file);
    fclose(file);
    return 1;
}

static void print_name(const char *what, const uint8_t *name, size_t length) {
    printf("%s %.*s", what, (int)length, (const char *)name);
}

static void print_refusal(const size_t *values, const uint8_t *names) {
    printf("refused by %zu, after %zu modules:", values[ASF_NUMBER], values[ASF_MODULES]);
    print_name(" module", names + ASF_MODULE_NAME, values[ASF_MODULE_LENGTH]);
    print_name(", name", names + ASF_CULPRIT_NAME, values[ASF_CULPRIT_LENGTH]);
    if (values[ASF_ACTUAL_LENGTH] > 0) print_name(", actual", names + ASF_ACTUAL_NAME, values[ASF_ACTUAL_LENGTH]);
    printf(", at byte %zu%s\n", values[ASF_AT], values[ASF_IN_LIBRARY] ? " of the library" : "");
}

static void print_visible(size_t listing_length) {
    size_t visible = asf_visible(out, listing_length);
    size_t line[ASF_LINE_VALUES];
    size_t place = 0;
    while (place < visible && asf_line(out, visible, place, line, ASF_LINE_VALUES) == ASF_LINE) {
        printf("%.*s is %.*s\n", (int)(line[ASF_LINE_MARK] - place), (const char *)out + place, (int)(line[ASF_LINE_END] - line[ASF_LINE_VALUE]),
               (const char *)out + line[ASF_LINE_VALUE]);
        place = line[ASF_LINE_NEXT];
    }
}

int main(int count, char **words) {
    size_t library_length = 0;
    if (count < 2 || count > 3 || (count == 3 && !read_library(words[2], &library_length))) {
        fprintf(stderr, "usage: example NAME [LIBRARY] < FILE\n");
        return 2;
    }
    size_t values[ASF_VALUES];
    uint8_t names[ASF_NAMES];
    size_t length = fread(text, 1, sizeof text, stdin);
    uint32_t number = asf_normalise((const uint8_t *)words[1], strlen(words[1]), library, library_length, text, length, work, ASF_MEMORY_WORDS,
                                    out, sizeof out, values, ASF_VALUES, names, ASF_NAMES);
    if (number != 0) {
        print_refusal(values, names);
        return 1;
    }
    print_visible(values[ASF_LISTING_LENGTH]);
    return 0;
}
