/* Normalising ASF specifications: the proved library, as C calls it.
 *
 * Nothing is allocated and nothing is kept between calls: all memory is lent by the caller. A pointer is followed by the number of elements
 * that it points to; it is never null, also where that number is 0. What is lent for writing overlaps nothing else that is lent in a call.
 * The archive is compiled for x86-64. */
#ifndef ASF_H
#define ASF_H

#include <stddef.h>
#include <stdint.h>

#ifdef __cplusplus
extern "C" {
#endif

/* The most bytes of each of the two texts, library and customer's, and of a name that is told. In a text a name and an operator have at most
 * 40 bytes; an operator's name has one or two underlines besides. */
#define ASF_TEXT_BYTES 32768
#define ASF_NAME_BYTES 42

/* The words of working memory that asf_normalise, asf_decide and asf_module_name need: 4 MiB. asf_memory_words gives the same number. */
#define ASF_MEMORY_WORDS 1048576

/* Where asf_normalise puts what in `values`, and how many values there are. */
enum {
    ASF_NUMBER,         /* the answer, as returned: 0 done, 1 to 15, 17 to 19 and 22 to 27 refused */
    ASF_MODULES,        /* how many modules were evaluated, a refused one included */
    ASF_AT,             /* for 1 to 5 the place in the text or, where ASF_IN_LIBRARY is 1, in the library, in bytes from 0 */
    ASF_MODULE_LENGTH,  /* bytes of the name of the module that was evaluated when refused; for 6 and 19 the asked one, blank (0) if it has
                           more than 40 bytes */
    ASF_CULPRIT_LENGTH, /* bytes of the culprit's name, for 22 to 27 a formal name */
    ASF_LISTING_LENGTH, /* bytes of the listing, at the front of the output */
    ASF_IN_LIBRARY,     /* 1 where ASF_AT is a place in the library, else 0 */
    ASF_ACTUAL_LENGTH,  /* for 22 to 26 bytes of the actual name that the culprit is paired with; else 0 */
    ASF_VALUES
};

/* Where asf_normalise puts the three names in `names`, zeros behind each, and how many bytes there are. */
#define ASF_MODULE_NAME 0
#define ASF_CULPRIT_NAME ASF_NAME_BYTES
#define ASF_ACTUAL_NAME (2 * ASF_NAME_BYTES)
#define ASF_NAMES (3 * ASF_NAME_BYTES)

/* Where asf_line puts what in `values`, and how many values there are. */
enum {
    ASF_LINE_KEY,   /* the key's number: 1 module, 2 sort, 3 function, 4 parameter, 5 parameter-sort, 6 parameter-function, 7 hidden-sort,
                       8 hidden-function, 9 variable, 10 equation, 11 end, 12 origin */
    ASF_LINE_MARK,  /* where the key, which begins at the place asked for, ends: at its `=` */
    ASF_LINE_VALUE, /* where the value begins */
    ASF_LINE_END,   /* where the value ends: at the LF */
    ASF_LINE_NEXT,  /* the place behind the line */
    ASF_LINE_VALUES
};

/* What asf_line returns: a line, the end of the listing, or no line (21). */
#define ASF_LINE 0
#define ASF_END 1
#define ASF_BAD_LINE 21

/* Where asf_fetch puts what in `values`, and how many values there are. */
enum {
    ASF_PART_IN_LIBRARY, /* 1 where the part is one of the library, 0 where it is one of the text */
    ASF_PART_PLACE,      /* where it begins there, in bytes from 0 */
    ASF_PART_LENGTH,     /* its bytes */
    ASF_PART_VALUES
};

/* What asf_fetch returns: a part, or none. */
#define ASF_PART 0
#define ASF_NO_PART 1

/* What asf_decide returns: keep the stored part, once the modules that are told are answered 0; ask the module itself; one of the two
 * specifications is not read; `work` is too short. */
#define ASF_KEEP_AFTER 0
#define ASF_ASK_AGAIN 1
#define ASF_NOT_READ 2
#define ASF_MEMORY_SHORT 19

/* Where asf_decide puts what in `values`, and how many values there are. What is not told is 0. */
enum {
    ASF_DECISION_REASON,      /* on ASF_ASK_AGAIN why, from ASF_ABSENT_BEFORE to ASF_NAMED_OTHERWISE */
    ASF_DECISION_LOW,         /* on ASF_KEEP_AFTER the modules to ask, by their numbers in the new specification: bit k is 1 for module k, from 0 */
    ASF_DECISION_HIGH,        /* the same from module 32 on: bit k is 1 for module 32 + k */
    ASF_DECISION_NUMBER,      /* on ASF_NOT_READ the refusal, 1 to 5 */
    ASF_DECISION_AT,          /* and its place, in bytes from 0 */
    ASF_DECISION_IN_NEW,      /* 1 where that is in the new specification, 0 where it is in the old one */
    ASF_DECISION_IN_LIBRARY,  /* 1 where it is in its library, 0 where it is in its text */
    ASF_DECISION_BY_LENGTH,   /* on ASF_ASK_AGAIN bytes of the name of the module concerned */
    ASF_DECISION_NAME_LENGTH, /* bytes of the other name that is told with ASF_REACHED_OTHERWISE and ASF_NAMED_OTHERWISE */
    ASF_DECISION_VALUES
};

/* Where asf_decide puts the two names in `names`, zeros behind each, and how many bytes there are. */
#define ASF_DECISION_BY 0
#define ASF_DECISION_NAME ASF_NAME_BYTES
#define ASF_DECISION_NAMES (2 * ASF_NAME_BYTES)

/* Why the module itself must be asked; of several reasons the first is told. They are no answers' numbers. */
enum {
    ASF_ABSENT_BEFORE = 1,  /* it does not stand in the old specification; the module told is the asked one, blank if it has more than 40 bytes */
    ASF_ABSENT_NOW,         /* it does not stand in the new one */
    ASF_REACHED_OTHERWISE,  /* it reaches other modules, or the same in another order; told are the one that it reaches there in the old
                               specification, and the one in the new */
    ASF_ASKED_CHANGED,      /* it changed itself, hidden things included */
    ASF_PARAMETERS_CHANGED, /* a module that it reaches has other parameters */
    ASF_EXPORTS_CHANGED,    /* other exports */
    ASF_IMPORTS_CHANGED,    /* other imports */
    ASF_NAMED_OTHERWISE     /* a module name that a reached module uses is missing in one of the two only, or stands too late in one only; told
                               are the module that uses it, and the name */
};

/* The words of working memory that asf_normalise, asf_decide and asf_module_name need. */
size_t asf_memory_words(void);

/* Normalises the module `asked` of a specification and returns the answer's number. The specification is `library` and `text`: the modules
 * of the library count as standing before those of the text, and a library of length 0 is none. On 0 the listing stands at the front of `out`
 * and the bytes behind it are unchanged; on any other number all of `out` is unchanged. `work` is zero afterwards in all cases. `values` and
 * `names` get what the answer says, as much of it as there is room; what is behind it is unchanged. All texts and every name are answered. */
uint32_t asf_normalise(const uint8_t *asked, size_t asked_length, const uint8_t *library, size_t library_length, const uint8_t *text,
                       size_t text_length, uint32_t *work, size_t work_length, uint8_t *out, size_t out_length, size_t *values,
                       size_t values_length, uint8_t *names, size_t names_length);

/* Finds the part of `library` or of `text` that declares the module `name`: from the first byte of its `module` to the last byte of the name
 * behind its `end`. Nothing is copied: `values` gets where the part stands, as much of it as there is room, and is unchanged where there is
 * none. Texts that asf_normalise refuses are looked through too, up to what is no token or no module. */
uint32_t asf_fetch(const uint8_t *name, size_t name_length, const uint8_t *library, size_t library_length, const uint8_t *text,
                   size_t text_length, size_t *values, size_t values_length);

/* Decides what to do before a stored visible part of the module `asked` is shown for a new specification. The part is that of the old one:
 * `asked` was answered 0 there, or the part was kept for it in this way. On ASF_KEEP_AFTER ask each module that `values` tells of the new
 * specification, by its name (asf_module_name): if all are answered 0, the part is that of the new specification too, and the next change is
 * decided from there. If one has another number, 18 and 19 among them, ask the module itself, as on ASF_ASK_AGAIN. Nothing is evaluated here.
 * `work` is zero afterwards in all cases. `values` and `names` get what is told, as much of it as there is room; what is behind it is
 * unchanged. */
uint32_t asf_decide(const uint8_t *asked, size_t asked_length, const uint8_t *old_library, size_t old_library_length, const uint8_t *old_text,
                    size_t old_text_length, const uint8_t *new_library, size_t new_library_length, const uint8_t *new_text,
                    size_t new_text_length, uint32_t *work, size_t work_length, size_t *values, size_t values_length, uint8_t *names,
                    size_t names_length);

/* The name of module `k` of a specification, counted from 0 over `library` and `text`: it returns the name's length, and `names` gets its
 * ASF_NAME_BYTES bytes, zeros behind the name, as much of it as there is room. The name is blank where there is no such module, where the
 * specification is not read, and where `work` is too short. `work` is zero afterwards in all cases. */
size_t asf_module_name(const uint8_t *library, size_t library_length, const uint8_t *text, size_t text_length, uint32_t k, uint32_t *work,
                       size_t work_length, uint8_t *names, size_t names_length);

/* Reads the line of a listing that begins at `place`. `values` gets the line's places, as much of them as there is room, and is unchanged
 * where no line is read. */
uint32_t asf_line(const uint8_t *listing, size_t listing_length, size_t place, size_t *values, size_t values_length);

/* The length of the visible part of a listing, which stands in front: what of a module other modules can see. */
size_t asf_visible(const uint8_t *listing, size_t listing_length);

#ifdef __cplusplus
}
#endif

#endif
