/* Rigbanut for C: the functions of the proved static library. One compiles a manifest, two convert a text to a
 * manifest (docs/NOTATION.md) and print a manifest as text, and one tells why a label counts for a value. Each of the
 * four is there a second time, with a list of types that replaces the eight built-in ones.
 *
 * bindings/run builds the library and shows how to link it (x86-64 Linux). */
#ifndef RIGBANUT_H
#define RIGBANUT_H

#include <stddef.h>
#include <stdint.h>

#ifdef __cplusplus
extern "C" {
#endif

/* A shorter working memory is refused (1). */
#define RIGBANUT_MEMORY 65536
/* No catalog is longer, so an output of this length is never too short for one that the rules allow. */
#define RIGBANUT_LONGEST_CATALOG 65535
/* The same for a manifest that is converted from a text, and for a text that is printed. */
#define RIGBANUT_LONGEST_MANIFEST 65535
#define RIGBANUT_LONGEST_TEXT 65535
/* A right list of types has 64 at most, each a field of at most 35 bytes. */
#define RIGBANUT_MOST_TYPES 64
#define RIGBANUT_LONGEST_TYPE_LIST 2240

/* Compiles a manifest for a device, in at most `limit` steps.
 *
 * What is lent: `out` takes the catalog, `work` is working memory. What they hold before the call does not matter.
 * After it `out` holds the catalog and then zeros, or zeros alone after a refusal; `work` is zero throughout.
 * No byte outside the two is written, and nothing is kept between calls, so calls may run side by side. The deepest
 * manifests known take 1.1 MiB of stack.
 *
 * What a caller owes, since nothing checks it: each pointer is not null, also for a length of 0, and is good for
 * its length; `out` and `work` overlap neither each other nor `manifest` or `device`.
 *
 * The answer is one number; the functions below take it apart. */
uint64_t rigbanut_compile(
    const uint8_t *manifest, size_t manifest_length,
    const uint8_t *device, size_t device_length,
    uint16_t limit,
    uint8_t *out, size_t out_length,
    uint8_t *work, size_t work_length);

/* Converts a text to its manifest, in `out`. What is lent and what a caller owes is as for a compile. */
uint64_t rigbanut_convert(
    const uint8_t *text, size_t text_length,
    uint8_t *out, size_t out_length,
    uint8_t *work, size_t work_length);

/* Prints a manifest as text, in `out`. What is lent and what a caller owes is as for a compile. */
uint64_t rigbanut_print(
    const uint8_t *manifest, size_t manifest_length,
    uint8_t *out, size_t out_length,
    uint8_t *work, size_t work_length);

/* Tells why `label` counts for a value of a device's catalog: that of the attribute called `attribute`, of the
 * resource of type `kind`, such as "kiosk", with the title `title`. The manifest is compiled for it with 65,535 steps
 * and 65,535 bytes for the catalog, which is not handed out.
 *
 * What is lent: `work` is working memory, and nothing else is written. What it holds before the call does not matter;
 * after it `work` is zero throughout. A call takes the time of 17 compiles at most, and 64 KiB of stack besides a
 * compile's, for the catalog.
 *
 * What a caller owes, since nothing checks it: each pointer is not null, also for a length of 0, and is good for its
 * length; `work` overlaps none of the others.
 *
 * The answer is one number. It says that the label is among those that decide the value, with the first part of the
 * value's set that holds it and the place of a constant; or that it is not among them; or it is a refusal: that of the
 * compile or, if there is none, 27 at 0, when the catalog has no such attribute. */
uint64_t rigbanut_why(
    const uint8_t *manifest, size_t manifest_length,
    const uint8_t *device, size_t device_length,
    const uint8_t *kind, size_t kind_length,
    const uint8_t *title, size_t title_length,
    const uint8_t *attribute, size_t attribute_length,
    uint8_t label,
    uint8_t *work, size_t work_length);

/* The same four with a list of types: a type is built in precisely if the list holds it, so the eight are not unless
 * they stand in it. The list is 1 to 64 fields, one after the other: the byte 0x02, the length in two bytes, the higher
 * first, and a name of 1 to 32 letters a to z; each name is above the one before it in the order of bytes. Another list
 * is refused (28) next after a short memory, at the offset in the list of its first faulty field. The call writes nothing
 * into the list, and `out` and `work` must not overlap it either. To compare two manifests, give both the same list. */
uint64_t rigbanut_compile_with_types(
    const uint8_t *types, size_t types_length,
    const uint8_t *manifest, size_t manifest_length,
    const uint8_t *device, size_t device_length,
    uint16_t limit,
    uint8_t *out, size_t out_length,
    uint8_t *work, size_t work_length);

uint64_t rigbanut_convert_with_types(
    const uint8_t *types, size_t types_length,
    const uint8_t *text, size_t text_length,
    uint8_t *out, size_t out_length,
    uint8_t *work, size_t work_length);

uint64_t rigbanut_print_with_types(
    const uint8_t *types, size_t types_length,
    const uint8_t *manifest, size_t manifest_length,
    uint8_t *out, size_t out_length,
    uint8_t *work, size_t work_length);

uint64_t rigbanut_why_with_types(
    const uint8_t *types, size_t types_length,
    const uint8_t *manifest, size_t manifest_length,
    const uint8_t *device, size_t device_length,
    const uint8_t *kind, size_t kind_length,
    const uint8_t *title, size_t title_length,
    const uint8_t *attribute, size_t attribute_length,
    uint8_t label,
    uint8_t *work, size_t work_length);

/* Accepted: steps * 65536 + length by a compile; the length by the two for texts; part * 65536 + place by the why call,
 * or 0 where the label is not among them. Refused, by all: number * 2^32 + place. */
static inline int rigbanut_is_accepted(uint64_t answer) { return answer >> 32 == 0; }

/* Of an accepted compile: the catalog's length in `out`, and the steps taken. */
static inline uint16_t rigbanut_length(uint64_t answer) { return (uint16_t)(answer & 0xFFFF); }
static inline uint16_t rigbanut_steps(uint64_t answer) { return (uint16_t)(answer >> 16 & 0xFFFF); }

/* Of an accepted text: the length of the manifest or of the text in `out`. */
static inline uint32_t rigbanut_written(uint64_t answer) { return (uint32_t)answer; }

/* The parts of a value's set, in the order in which the label is looked for. */
enum {
    RIGBANUT_NOT_AMONG = 0,
    RIGBANUT_TITLE = 1, /* the set of the title expression */
    RIGBANUT_PATH = 2,
    RIGBANUT_TRAIL = 3, /* as it is when the resource is added */
    RIGBANUT_MARKS = 4, /* those that the attribute's own expression read */
    RIGBANUT_VALUE = 5  /* the rest */
};

/* Of a why call: whether the label is among those that decide the value. A refusal says neither, so ask first whether
 * the call is accepted. If it is: the first part that holds the label, 1 to 5, or 0 where it is not among them. */
static inline int rigbanut_is_among(uint64_t answer) { return answer != 0 && rigbanut_is_accepted(answer); }
static inline unsigned rigbanut_part(uint64_t answer) { return (unsigned)(answer >> 16 & 0xFFFF); }

/* What that part says of the label, in words. */
static inline const char *rigbanut_part_words(unsigned part)
{
    static const char *const words[] = {
        "it is not among the labels that decide the value",
        "the resource's title is worked out from it, or from a variable or attribute that it decides",
        "a condition around the resource, or around a declaration that leads to it, depends on it",
        "a condition tested before the resource was added depends on it, and one of its branches, taken or not, declares a class or a type",
        "a condition depends on it, and one of its branches, taken or not, assigns a variable that the value reads",
        "the value is worked out from it, or from a variable or attribute that it decides",
    };
    return part < sizeof words / sizeof *words ? words[part] : "not a part's number";
}

/* Of a refused call: the reason's number, 1 to 28. */
static inline unsigned rigbanut_number(uint64_t answer) { return (unsigned)(answer >> 32); }

/* Of a refused call: the offset of the field concerned in the manifest, or of the token concerned in the text that was
 * to be converted, or after 28 of the field concerned in the list of types. Of a label that is among them: the offset in the manifest of the first constant with this label that
 * the compile evaluated, tried as a pattern or assigned to a parameter as its default. It need not be the one through
 * which the label came into this set. */
static inline uint16_t rigbanut_place(uint64_t answer) { return (uint16_t)(answer & 0xFFFF); }

/* The reason of that number in words. 24 to 26 are those of the text notation, which a compile never gives; 27 is given
 * by the why call alone, 28 by the calls with a list of types. */
static inline const char *rigbanut_reason(unsigned number)
{
    static const char *const reasons[] = {
        "no refusal",
        "the working memory is shorter than 65,536 bytes",
        "the manifest's length is outside 1 to 65,535",
        "a field's tag, length or parts are not as listed",
        "a field is deeper than 32",
        "the strings don't rise strictly, or a name is past the table",
        "a further step would pass the limit",
        "a declaration would go below level 16",
        "a defined name is defined again, or is a built-in type",
        "the class or type is unknown, or a resource's type is not built in",
        "a class that is declared already is declared with attributes",
        "a parameter is unknown",
        "a parameter has neither value nor default",
        "the variable has no value in any scope tried",
        "the variable has a value in this scope already",
        "an operand, condition or title is of the wrong kind",
        "the result is outside 64 bits",
        "the divisor is zero",
        "no pattern of a selector matches",
        "the resource or attribute read is not in the catalog",
        "type and title are already in the catalog",
        "an attribute is named twice in one body",
        "a 513th cell is needed",
        "the finished entry passes the output's end or 65,535 bytes in all",
        "the text is outside the notation or a limit, or text or manifest is over 65,535 bytes or the output",
        "a constant stands past line 255",
        "a label falls, a name or type cannot be spelled, or the text is over 65,535 bytes or the output",
        "the catalog has no such attribute",
        "the list of types is empty, or this field is not 1 to 32 letters a to z, is not above the one before it, or is the 65th",
    };
    return number < sizeof reasons / sizeof *reasons ? reasons[number] : "not a refusal's number";
}

#ifdef __cplusplus
}
#endif

#endif
