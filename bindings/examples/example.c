/* Compiles the scope paper's schedule manifest for the device "desk", with steps enough and with one too few, and asks
 * why labels count for the kiosk's price. Then converts a text, compiles its manifest, prints that as text again, and
 * converts a text that is outside the notation. Last come the four calls with lists of types, one of them wrong. */
#include "../rigbanut.h"

#include <stdio.h>
#include <string.h>

static const uint8_t manifest[] = {
    /* the string table */
    0x01, 0, 47,
    0x02, 0, 3, 'f', 'e', 'e',                     /* 0 */
    0x02, 0, 5, 'f', 'r', 'o', 'n', 't',           /* 1 */
    0x02, 0, 5, 'k', 'i', 'o', 's', 'k',           /* 2 */
    0x02, 0, 4, 'p', 'e', 'a', 'k',                /* 3 */
    0x02, 0, 5, 'p', 'r', 'i', 'c', 'e',           /* 4 */
    0x02, 0, 7, 's', 'c', 'r', 'e', 'e', 'n', 's', /* 5 */
    /* fee = 40 (label 1) */
    0x21, 0, 14, 0, 0, 0x10, 0, 9, 1, 0, 0, 0, 0, 0, 0, 0, 40,
    /* peak = false (label 2) */
    0x21, 0, 7, 0, 3, 0x12, 0, 2, 2, 0,
    /* node default */
    0x30, 0, 75, 0x1B, 0, 0, 0x20, 0, 69,
    /*   if peak, fee = 55 (label 3) */
    0x22, 0, 28, 0x13, 0, 2, 0, 3,
    0x20, 0, 17, 0x21, 0, 14, 0, 0, 0x10, 0, 9, 3, 0, 0, 0, 0, 0, 0, 0, 55,
    0x20, 0, 0,
    /*   kiosk "front" (label 4), price = fee, screens = 2 (label 5) */
    0x25, 0, 35, 0, 2, 0x11, 0, 3, 4, 0, 1,
    0x26, 0, 7, 0, 4, 0x13, 0, 2, 0, 0,
    0x26, 0, 14, 0, 5, 0x10, 0, 9, 5, 0, 0, 0, 0, 0, 0, 0, 2,
};

static const uint8_t device[] = {'d', 'e', 's', 'k'};

/* Too large for some stacks, and needed by every call. */
static uint8_t out[RIGBANUT_LONGEST_CATALOG];
static uint8_t work[RIGBANUT_MEMORY];

static void say_refusal(uint64_t answer)
{
    unsigned number = rigbanut_number(answer);
    printf("refused %u at %u: %s\n", number, (unsigned)rigbanut_place(answer), rigbanut_reason(number));
}

static void say_catalog(uint64_t answer)
{
    if (!rigbanut_is_accepted(answer)) {
        say_refusal(answer);
        return;
    }
    printf("accepted: %u bytes in %u steps\n", (unsigned)rigbanut_length(answer), (unsigned)rigbanut_steps(answer));
    for (size_t at = 0; at < rigbanut_length(answer); at++)
        printf("%02x", (unsigned)out[at]);
    printf("\n");
}

static void compile(const uint8_t *bytes, size_t length, uint16_t limit)
{
    say_catalog(rigbanut_compile(bytes, length, device, sizeof device, limit, out, sizeof out, work, sizeof work));
}

static const uint8_t kind[] = {'k', 'i', 'o', 's', 'k'};
static const uint8_t title[] = {'f', 'r', 'o', 'n', 't'};

static void say_why(uint8_t label, uint64_t answer)
{
    if (!rigbanut_is_accepted(answer)) {
        say_refusal(answer);
        return;
    }
    if (!rigbanut_is_among(answer)) {
        printf("label %u: not among them\n", (unsigned)label);
        return;
    }
    unsigned part = rigbanut_part(answer);
    printf("label %u: part %u at %u: %s\n", (unsigned)label, part, (unsigned)rigbanut_place(answer),
           rigbanut_part_words(part));
}

static void why(const char *attribute, uint8_t label)
{
    say_why(label, rigbanut_why(
        manifest, sizeof manifest, device, sizeof device, kind, sizeof kind, title, sizeof title,
        (const uint8_t *)attribute, strlen(attribute), label, work, sizeof work));
}

/* Labels 1, 2 and 4 decide the price. The places are the offsets of their constants in the manifest. */
static void why_all(void)
{
    /* fee = 40, at 55: the price reads this fee. */
    why("price", 1);
    /* peak = false, at 72. The kiosk stands behind the `if`, not in it, so 2 is not in the path. But a branch of the
     * `if` assigns fee, though it is not taken: so 2 is in the mark of fee in the node's scope, and reading fee tries
     * that scope before the top, where fee has its value. */
    why("price", 2);
    /* fee = 55 is never evaluated. */
    why("price", 3);
    /* The title "front", at 122. A resource's labels are among those of each of its attributes. */
    why("price", 4);
    why("colour", 4);
}

static const char text[] =
    "$fee = 40\n"
    "$peak = false\n"
    "node desk { if $peak { $fee = 55 }\n"
    "  kiosk { \"front\":\n"
    "    price => $fee, screens => 2 } }\n";

/* The manifest that a call left in `out`, kept; its length, or 0 after a refusal. */
static size_t keep(uint64_t answer, uint8_t *converted)
{
    if (!rigbanut_is_accepted(answer)) {
        say_refusal(answer);
        return 0;
    }
    size_t length = rigbanut_written(answer);
    memcpy(converted, out, length);
    printf("converted: %zu bytes\n", length);
    return length;
}

static size_t convert(const char *given, uint8_t *converted)
{
    return keep(rigbanut_convert((const uint8_t *)given, strlen(given), out, sizeof out, work, sizeof work), converted);
}

static void say_text(uint64_t answer)
{
    if (!rigbanut_is_accepted(answer)) {
        say_refusal(answer);
        return;
    }
    fwrite(out, 1, rigbanut_written(answer), stdout);
}

static void print(const uint8_t *bytes, size_t length)
{
    say_text(rigbanut_print(bytes, length, out, sizeof out, work, sizeof work));
}

/* Two types, in rising order; and two that fall, which is refused at the second. */
static const uint8_t own_types[] = {0x02, 0, 5, 'b', 'e', 'n', 'c', 'h', 0x02, 0, 5, 'k', 'i', 'o', 's', 'k'};
static const uint8_t falling[] = {0x02, 0, 5, 'k', 'i', 'o', 's', 'k', 0x02, 0, 5, 'b', 'e', 'n', 'c', 'h'};

static const char bench_text[] = "node default { bench { 'hall': seats => 12 } }\n";

static void with_types(uint8_t *converted)
{
    say_catalog(rigbanut_compile_with_types(
        own_types, sizeof own_types, manifest, sizeof manifest, device, sizeof device, 4, out, sizeof out, work,
        sizeof work));
    say_why(4, rigbanut_why_with_types(
        own_types, sizeof own_types, manifest, sizeof manifest, device, sizeof device, kind, sizeof kind, title,
        sizeof title, (const uint8_t *)"price", 5, 4, work, sizeof work));
    size_t length = keep(
        rigbanut_convert_with_types(
            own_types, sizeof own_types, (const uint8_t *)bench_text, strlen(bench_text), out, sizeof out, work,
            sizeof work),
        converted);
    say_text(rigbanut_print_with_types(
        own_types, sizeof own_types, converted, length, out, sizeof out, work, sizeof work));
    /* No bench is among the eight. */
    compile(converted, length, 4);
    say_catalog(rigbanut_compile_with_types(
        falling, sizeof falling, manifest, sizeof manifest, device, sizeof device, 4, out, sizeof out, work,
        sizeof work));
}

int main(void)
{
    static uint8_t converted[RIGBANUT_LONGEST_MANIFEST];
    compile(manifest, sizeof manifest, 4);
    compile(manifest, sizeof manifest, 3);
    why_all();
    size_t length = convert(text, converted);
    compile(converted, length, 4);
    print(converted, length);
    convert("$fee == 40\n", converted);
    with_types(converted);
    return 0;
}
