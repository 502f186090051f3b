/* Measures from outside the stack that calls of the library take: stack FILE.., each a standard input of asfnorm. It prints a line BYTES
 * FUNCTION FILE for each function that is called on it. A call runs in a thread of its own, whose stack is painted beforehand.
 * What counts is everything below the frame of the function that calls, down to the deepest byte that is written: the arguments that do not
 * fit in registers, the return address, the library's frames, and those of the C library's functions that it calls to copy and to set memory.
 * Bytes of a frame that nobody writes count where something below them is written; on x86-64 every call writes its return address there. */
#define _POSIX_C_SOURCE 200112L
#include "asf.h"

#include <pthread.h>
#include <signal.h>
#include <stdio.h>
#include <stdlib.h>
#include <string.h>

/* APART keeps what the thread itself writes when it begins and when it ends above the frame that calls. */
enum { STACK = 262144, APART = 16384, STEP = 64, KNOWN = 5000, KNOWN_BESIDE = 100 };

static _Alignas(STEP) uint8_t stack[STACK];
static uint8_t paint[STACK];

static void stop(const char *what, const char *which) {
    fprintf(stderr, "stack: %s%s\n", what, which);
    exit(2);
}

struct bytes {
    const uint8_t *start;
    size_t length;
};

/* What is asked; it is framed within one file's bytes. */
static uint8_t file[4 * ASF_TEXT_BYTES];
static struct bytes name, library, text, edited;

/* What a call is lent, and what it has left. */
static uint32_t work[ASF_MEMORY_WORDS];
static uint8_t out[65536];
static size_t values[ASF_VALUES], part[ASF_PART_VALUES], line[ASF_LINE_VALUES], decision[ASF_DECISION_VALUES];
static uint8_t names[ASF_NAMES];
static size_t place;

/* What a call returns is kept behind it, so that none is made by a jump which leaves the caller's frame. */
static volatile uint32_t number;
static volatile size_t told_length;

/* The frame that calls: all below it is the call's, since a function that notes its frame here keeps nothing there. */
static const uint8_t *caller;
#define NOTING __attribute__((noinline)) static void

NOTING call_normalise(void) {
    caller = __builtin_frame_address(0);
    number = asf_normalise(name.start, name.length, library.start, library.length, text.start, text.length, work, ASF_MEMORY_WORDS, out,
                           sizeof out, values, ASF_VALUES, names, ASF_NAMES);
}

NOTING call_fetch(void) {
    caller = __builtin_frame_address(0);
    number = asf_fetch(name.start, name.length, library.start, library.length, text.start, text.length, part, ASF_PART_VALUES);
}

NOTING call_line(void) {
    caller = __builtin_frame_address(0);
    number = asf_line(out, values[ASF_LISTING_LENGTH], place, line, ASF_LINE_VALUES);
}

NOTING call_visible(void) {
    caller = __builtin_frame_address(0);
    told_length = asf_visible(out, values[ASF_LISTING_LENGTH]);
}

/* From a specification to itself, and to itself with a line feed behind it, which is read again: all of it is compared. */
NOTING call_decide(void) {
    caller = __builtin_frame_address(0);
    number = asf_decide(name.start, name.length, library.start, library.length, text.start, text.length, library.start, library.length,
                        edited.start, edited.length, work, ASF_MEMORY_WORDS, decision, ASF_DECISION_VALUES, names, ASF_DECISION_NAMES);
}

NOTING call_module_name(void) {
    caller = __builtin_frame_address(0);
    told_length = asf_module_name(library.start, library.length, text.start, text.length, 0, work, ASF_MEMORY_WORDS, names, ASF_NAME_BYTES);
}

static void call_lines(void) {
    place = 0;
    for (call_line(); number == ASF_LINE; call_line()) place = line[ASF_LINE_NEXT];
}

__attribute__((noinline)) static uint32_t take_known(void) {
    volatile uint8_t bytes[KNOWN];
    for (size_t i = 0; i < KNOWN; i++) bytes[i] = (uint8_t)~paint[i];
    return bytes[0];
}

NOTING call_known(void) {
    caller = __builtin_frame_address(0);
    number = take_known();
}

struct call {
    const char *function;
    void (*make)(void);
};

static void *run(void *call) {
    volatile uint8_t apart[APART];
    apart[0] = 0;
    ((const struct call *)call)->make();
    return apart[0] ? call : NULL;
}

/* Bytes without an order, so that nothing which a call writes looks like them. */
static void mix_paint(void) {
    uint32_t mixed = 1;
    for (size_t i = 0; i < STACK; i++) {
        mixed = mixed * 1664525u + 1013904223u;
        paint[i] = (uint8_t)(mixed >> 24);
    }
}

static size_t still_painted(void) {
    size_t i = 0;
    while (i < STACK && memcmp(stack + i, paint + i, STEP) == 0) i += STEP;
    while (i < STACK && stack[i] == paint[i]) i++;
    return i;
}

/* The thread takes no signal: a handler would write on its stack too. */
static int run_apart(struct call *call) {
    pthread_attr_t attributes;
    pthread_t thread;
    sigset_t all, usual;
    sigfillset(&all);
    if (pthread_attr_init(&attributes) || pthread_attr_setstack(&attributes, stack, STACK)) return 0;
    pthread_sigmask(SIG_SETMASK, &all, &usual);
    int failed = pthread_create(&thread, &attributes, run, call);
    pthread_sigmask(SIG_SETMASK, &usual, NULL);
    pthread_attr_destroy(&attributes);
    return !failed && !pthread_join(thread, NULL);
}

static size_t measured(struct call call) {
    memcpy(stack, paint, STACK);
    if (!run_apart(&call)) stop("no thread for ", call.function);
    size_t painted = still_painted();
    if (painted == 0) stop("the stack is too small for ", call.function);
    return (size_t)(caller - (stack + painted));
}

static void tell(const char *function, void (*make)(void), const char *path) {
    struct call call = {function, make};
    printf("%zu %s %s\n", measured(call), function, path);
}

/* The measuring must find what is known. */
static void try_known(void) {
    struct call known = {"what is known", call_known};
    size_t found = measured(known);
    if (found < KNOWN || found > KNOWN + KNOWN_BESIDE) stop("not measured rightly: ", known.function);
}

/* The line behind the key at the front of the bytes, which it is taken from; none where another key stands there. */
static struct bytes take_line(struct bytes *from, const char *key) {
    struct bytes none = {from->start, 0};
    size_t size = strlen(key);
    const uint8_t *end = memchr(from->start, '\n', from->length);
    if (!end || from->length < size || memcmp(from->start, key, size) != 0) return none;
    struct bytes value = {from->start + size, (size_t)(end - from->start) - size};
    from->length -= (size_t)(end + 1 - from->start);
    from->start = end + 1;
    return value;
}

/* A line for a library that has fewer bytes than it tells is one of the text. What else is wrong with the first lines does not matter here:
 * asfnorm answers it without a call. */
static void frame_input(size_t length) {
    text.start = file;
    text.length = length;
    name = take_line(&text, "normalise=");
    struct bytes behind = text;
    struct bytes told = take_line(&behind, "library=");
    library.start = behind.start;
    library.length = 0;
    if (told.length == 0 || told.length > 9) return;
    size_t size = strtoul((const char *)told.start, NULL, 10);
    if (size > behind.length) return;
    library.length = size;
    text.start = behind.start + size;
    text.length = behind.length - size;
}

static void read_input(const char *path) {
    FILE *from = fopen(path, "rb");
    if (!from) stop("cannot be read: ", path);
    size_t length = fread(file, 1, sizeof file, from);
    fclose(from);
    if (length == sizeof file) stop("too long: ", path);
    file[length] = '\n';
    frame_input(length);
}

static void measure_input(const char *path) {
    read_input(path);
    tell("asf_fetch", call_fetch, path);
    edited = text;
    tell("asf_decide", call_decide, path);
    edited.length++;
    tell("asf_decide", call_decide, path);
    tell("asf_module_name", call_module_name, path);
    tell("asf_normalise", call_normalise, path);
    if (number != 0) return;
    tell("asf_line", call_lines, path);
    tell("asf_visible", call_visible, path);
}

int main(int count, char **words) {
    mix_paint();
    try_known();
    for (int i = 1; i < count; i++) measure_input(words[i]);
    return 0;
}
