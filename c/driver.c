/* Calls the library as often as it is asked, for a comparison (rust/compare): requests on standard input, replies on standard output, both
 * as words of 32 and 64 bits, least byte first, and bytes. All that is lent is filled with bytes that the library does not write, and stands
 * between guards. */
#define _POSIX_C_SOURCE 199309L
#include "asf.h"

#include <stdio.h>
#include <stdlib.h>
#include <string.h>
#include <time.h>

enum { GUARD = 64, FILL = 0xa5 };

/* What a reply says was broken. */
enum { MEMORY_NOT_ZERO = 1, OUTPUT_CHANGED = 2, GUARD_CHANGED = 4, INPUT_CHANGED = 8 };

static void stop(const char *what) {
    fprintf(stderr, "driver: %s\n", what);
    exit(2);
}

static void get(void *to, size_t length) {
    if (fread(to, 1, length, stdin) != length) stop("a request breaks off");
}

static void put(const void *from, size_t length) {
    if (fwrite(from, 1, length, stdout) != length) stop("nobody reads the replies");
}

static void put_word(uint32_t word) {
    put(&word, sizeof word);
}

static void put_long(uint64_t word) {
    put(&word, sizeof word);
}

/* So many bytes between two guards. */
struct lent {
    uint8_t *start;
    size_t length;
};

static struct lent lend(size_t length) {
    uint8_t *whole = malloc(length + 2 * GUARD);
    if (!whole) stop("no memory");
    memset(whole, FILL, length + 2 * GUARD);
    struct lent lent = {whole + GUARD, length};
    return lent;
}

static void give_back(struct lent lent) {
    free(lent.start - GUARD);
}

static int filled(const uint8_t *from, size_t length) {
    for (size_t i = 0; i < length; i++)
        if (from[i] != FILL) return 0;
    return 1;
}

static int guarded(struct lent lent) {
    return filled(lent.start - GUARD, GUARD) && filled(lent.start + lent.length, GUARD);
}

static int all_zero(struct lent lent) {
    const uint64_t *words = (const uint64_t *)lent.start;
    uint64_t any = 0;
    for (size_t i = 0; i < lent.length / 8; i++) any |= words[i];
    for (size_t i = lent.length / 8 * 8; i < lent.length; i++) any |= lent.start[i];
    return any == 0;
}

static struct lent taken(size_t length) {
    struct lent lent = lend(length);
    get(lent.start, length);
    return lent;
}

/* A module's name and a specification, for reading alone. */
struct question {
    struct lent name, library, text;
};

static struct question taken_question(const uint32_t *lengths) {
    struct question q;
    q.name = taken(lengths[0]);
    q.library = taken(lengths[1]);
    q.text = taken(lengths[2]);
    return q;
}

static void give_back_question(struct question *q) {
    give_back(q->name);
    give_back(q->library);
    give_back(q->text);
}

static int guarded_question(const struct question *q) {
    return guarded(q->name) && guarded(q->library) && guarded(q->text);
}

/* A sum that changes with any one byte. */
static uint64_t sum(struct lent lent, uint64_t h) {
    for (size_t i = 0; i < lent.length; i++) h = (h ^ lent.start[i]) * 1099511628211u;
    return h;
}

static uint64_t sum_question(const struct question *q) {
    return sum(q->text, sum(q->library, sum(q->name, 14695981039346656037u)));
}

/* What one call of asf_normalise lends. */
struct call {
    struct question question;
    struct lent work, out, values, names;
};

/* The lengths of the question stand first; it is read. */
static struct call lend_call(const uint32_t *question, size_t words, size_t out, size_t values, size_t names) {
    struct call c;
    c.question = taken_question(question);
    c.work = lend(words * 4);
    c.out = lend(out);
    c.values = lend(values * sizeof(size_t));
    c.names = lend(names);
    return c;
}

static void give_back_call(struct call *c) {
    give_back_question(&c->question);
    give_back(c->work);
    give_back(c->out);
    give_back(c->values);
    give_back(c->names);
}

static uint32_t normalise(struct call *c) {
    const struct question *q = &c->question;
    return asf_normalise(q->name.start, q->name.length, q->library.start, q->library.length, q->text.start, q->text.length,
                         (uint32_t *)c->work.start, c->work.length / 4, c->out.start, c->out.length, (size_t *)c->values.start,
                         c->values.length / sizeof(size_t), c->names.start, c->names.length);
}

/* The processor's time for this process, in nanoseconds: other work on the machine does not count. */
static uint64_t now(void) {
    struct timespec t;
    clock_gettime(CLOCK_PROCESS_CPUTIME_ID, &t);
    return (uint64_t)t.tv_sec * 1000000000u + (uint64_t)t.tv_nsec;
}

static uint32_t broken(const struct call *c, size_t listing, uint64_t question_sum) {
    uint32_t flags = 0;
    if (!all_zero(c->work)) flags |= MEMORY_NOT_ZERO;
    if (!filled(c->out.start + listing, c->out.length - listing)) flags |= OUTPUT_CHANGED;
    if (!guarded_question(&c->question) || !guarded(c->work) || !guarded(c->out) || !guarded(c->values) || !guarded(c->names))
        flags |= GUARD_CHANGED;
    if (sum_question(&c->question) != question_sum) flags |= INPUT_CHANGED;
    return flags;
}

/* Lengths of name, library, text, memory in words, output, values, names, and of the listing that is expected; then name, library and text.
 * The reply: number, what was broken, values, names, and as many bytes of the output as are expected. */
static void answer(void) {
    uint32_t h[8];
    get(h, sizeof h);
    struct call c = lend_call(h, h[3], h[4], h[5], h[6]);
    uint64_t question_sum = sum_question(&c.question);
    uint32_t number = normalise(&c);
    size_t listing = h[7] < c.out.length ? h[7] : c.out.length;
    put_word(number);
    put_word(broken(&c, listing, question_sum));
    put(c.values.start, c.values.length);
    put(c.names.start, c.names.length);
    put(c.out.start, listing);
    give_back_call(&c);
}

/* Lengths of name, library, text and values; then name, library and text. The reply: number, what was broken, values. */
static void fetch(void) {
    uint32_t h[4];
    get(h, sizeof h);
    struct question q = taken_question(h);
    struct lent values = lend(h[3] * sizeof(size_t));
    uint64_t question_sum = sum_question(&q);
    uint32_t number = asf_fetch(q.name.start, q.name.length, q.library.start, q.library.length, q.text.start, q.text.length,
                                (size_t *)values.start, h[3]);
    put_word(number);
    put_word((guarded_question(&q) && guarded(values) ? 0 : GUARD_CHANGED) | (sum_question(&q) == question_sum ? 0 : INPUT_CHANGED));
    put(values.start, values.length);
    give_back_question(&q);
    give_back(values);
}

/* A listing's length, a place, and the listing. The reply: the places of each line from there on, each behind a 0; what ended it; the length
 * of the visible part. */
static void read_back(void) {
    uint32_t h[2];
    get(h, sizeof h);
    struct lent listing = taken(h[0]);
    struct lent values = lend(ASF_LINE_VALUES * sizeof(size_t));
    const size_t *places = (const size_t *)values.start;
    size_t place = h[1];
    uint32_t number;
    while ((number = asf_line(listing.start, listing.length, place, (size_t *)values.start, ASF_LINE_VALUES)) == ASF_LINE) {
        put_word(ASF_LINE);
        put(places, ASF_LINE_VALUES * sizeof(size_t));
        place = places[ASF_LINE_NEXT];
    }
    put_word(number);
    put_long(asf_visible(listing.start, listing.length));
    give_back(listing);
    give_back(values);
}

/* What one call of asf_decide lends: a module's name, two specifications, memory, values and names. */
struct decision {
    struct lent name, texts[4], work, values, names;
};

/* The lengths of the name and of the texts, old library, old text, new library, new text, stand first; they are read. */
static struct decision lend_decision(const uint32_t *lengths, size_t words, size_t values, size_t names) {
    struct decision d;
    d.name = taken(lengths[0]);
    for (int i = 0; i < 4; i++) d.texts[i] = taken(lengths[i + 1]);
    d.work = lend(words * 4);
    d.values = lend(values * sizeof(size_t));
    d.names = lend(names);
    return d;
}

static void give_back_decision(struct decision *d) {
    give_back(d->name);
    for (int i = 0; i < 4; i++) give_back(d->texts[i]);
    give_back(d->work);
    give_back(d->values);
    give_back(d->names);
}

static uint32_t decide_call(struct decision *d) {
    const struct lent *t = d->texts;
    return asf_decide(d->name.start, d->name.length, t[0].start, t[0].length, t[1].start, t[1].length, t[2].start, t[2].length, t[3].start,
                      t[3].length, (uint32_t *)d->work.start, d->work.length / 4, (size_t *)d->values.start,
                      d->values.length / sizeof(size_t), d->names.start, d->names.length);
}

static uint64_t sum_decision(const struct decision *d) {
    uint64_t all = sum(d->name, 14695981039346656037u);
    for (int i = 0; i < 4; i++) all = sum(d->texts[i], all);
    return all;
}

static uint32_t broken_decision(const struct decision *d, uint64_t decision_sum) {
    uint32_t flags = all_zero(d->work) ? 0 : MEMORY_NOT_ZERO;
    int guards = guarded(d->name) && guarded(d->work) && guarded(d->values) && guarded(d->names);
    for (int i = 0; i < 4; i++) guards = guards && guarded(d->texts[i]);
    if (!guards) flags |= GUARD_CHANGED;
    if (sum_decision(d) != decision_sum) flags |= INPUT_CHANGED;
    return flags;
}

/* Lengths of name, old library, old text, new library, new text, memory in words, values and names; then name and texts. The reply: number,
 * what was broken, values, names. */
static void decide(void) {
    uint32_t h[8];
    get(h, sizeof h);
    struct decision d = lend_decision(h, h[5], h[6], h[7]);
    uint64_t decision_sum = sum_decision(&d);
    put_word(decide_call(&d));
    put_word(broken_decision(&d, decision_sum));
    put(d.values.start, d.values.length);
    put(d.names.start, d.names.length);
    give_back_decision(&d);
}

/* Lengths of library and text, a module's number, lengths of memory in words and of names; then library and text. The reply: the name's
 * length, what was broken, names. */
static void name_module(void) {
    uint32_t h[5];
    get(h, sizeof h);
    struct lent library = taken(h[0]), text = taken(h[1]), work = lend((size_t)h[3] * 4), names = lend(h[4]);
    uint64_t texts_sum = sum(text, sum(library, 0));
    put_word((uint32_t)asf_module_name(library.start, library.length, text.start, text.length, h[2], (uint32_t *)work.start, h[3],
                                       names.start, names.length));
    int guards = guarded(library) && guarded(text) && guarded(work) && guarded(names);
    put_word((all_zero(work) ? 0 : MEMORY_NOT_ZERO) | (guards ? 0 : GUARD_CHANGED) |
             (sum(text, sum(library, 0)) == texts_sum ? 0 : INPUT_CHANGED));
    put(names.start, names.length);
    give_back(library);
    give_back(text);
    give_back(work);
    give_back(names);
}

/* Lengths as for a decision up to the texts', and how often; then name and texts. The reply: number, and the least processor time of a call in
 * nanoseconds. */
static void time_decisions(void) {
    uint32_t h[6];
    get(h, sizeof h);
    struct decision d = lend_decision(h, asf_memory_words(), ASF_DECISION_VALUES, ASF_DECISION_NAMES);
    uint32_t number = 0;
    uint64_t least = UINT64_MAX;
    for (uint32_t i = 0; i < h[5]; i++) {
        uint64_t start = now();
        number = decide_call(&d);
        uint64_t taken = now() - start;
        if (taken < least) least = taken;
    }
    put_word(number);
    put_long(least);
    give_back_decision(&d);
}

/* Lengths of name, library, text and output, and how often; then name, library and text. The reply: number, and the least processor time of a
 * call in nanoseconds. The library clears the working memory within the call. */
static void time_calls(void) {
    uint32_t h[5];
    get(h, sizeof h);
    struct call c = lend_call(h, asf_memory_words(), h[3], ASF_VALUES, ASF_NAMES);
    uint32_t number = 0;
    uint64_t least = UINT64_MAX;
    for (uint32_t i = 0; i < h[4]; i++) {
        uint64_t start = now();
        number = normalise(&c);
        uint64_t taken = now() - start;
        if (taken < least) least = taken;
    }
    put_word(number);
    put_long(least);
    give_back_call(&c);
}

int main(void) {
    uint32_t kind;
    while (fread(&kind, sizeof kind, 1, stdin) == 1) {
        if (kind == 0) answer();
        else if (kind == 1) read_back();
        else if (kind == 2) time_calls();
        else if (kind == 3) fetch();
        else if (kind == 4) decide();
        else if (kind == 5) name_module();
        else if (kind == 6) time_decisions();
        else stop("no such request");
        fflush(stdout);
    }
    return 0;
}
