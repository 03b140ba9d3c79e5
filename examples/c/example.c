/* Finds an item in a stack of cards, shows its facts, writes and reads the
 * descriptor of its layout, turns a line of its points into colors, reads one
 * channel of it alone, sends codes to the ends of its range and tells how many were
 * cut. Then turns a line of an early capture into colors, and writes its card; and a
 * line of a tape deck, whose points share Cb and Cr two by two, which it also encodes.
 * Last it exports a picture, from its card and its packed points, as a file that Netpbm
 * and others read, which goes to PPM if that is given, and imports it again.
 * Usage: example STACK CARD PACKED [PPM] */
#include <imurraqi.h>

#include <inttypes.h>
#include <math.h>
#include <stdio.h>
#include <stdlib.h>
#include <string.h>

enum { LAYOUT = 9, CARD = 32, STACK = 1024 * CARD, DESCRIPTOR = 76 };
enum { PRIMARIES = 1, RANGE = 2, DEPTH = 3, BYTES = 4 }; /* of a layout */
enum { NARROW = 1, FULL = 2, LEGACY_FULL = 3 };          /* ranges */
enum { OWN = 0, GROUPS = 1 };                            /* samplings */
enum { CR = 2 };                                         /* a channel */
enum { COMMUNITY = 1 };                                  /* an access */
enum { BT709 = 1 };                                      /* primaries */
enum { ACCESS = 24 };                                    /* of a card */
enum { PICTURE = 1 << 20 };                              /* bytes of points at most */
enum { POINTS = 4, CODES = 3 * POINTS, EARLY_CODES = 6, TAPE = 2 * POINTS };

/* White, red, green and blue, as item 203002 has them: Y', Cb and Cr of 10 bits
 * each, in four bytes. */
static const uint8_t packed[4 * POINTS] = {
    0xac, 0x03, 0x08, 0x20, 0x46, 0xa5, 0x05, 0x3c,
    0x42, 0x5e, 0x93, 0x08, 0xa4, 0x00, 0x7f, 0x1b,
};

/* White and red of an early capture, in the older full range: a byte each of Y',
 * Cb and Cr. */
static const uint8_t early_layout[LAYOUT] = {
    2, 2, LEGACY_FULL, 8, 3, 0, 8, 16, OWN,
};
static const uint8_t early[EARLY_CODES] = {255, 128, 128, 77, 85, 255};

/* White and black, red and dark red of an old tape deck: two groups of two points,
 * a byte each of Cb, Y', Cr and Y'. */
static const uint8_t tape_layout[LAYOUT] = {
    2, 2, NARROW, 8, 4, 0, 0, 0, GROUPS,
};
static const uint8_t tape[TAPE] = {128, 235, 128, 16, 90, 81, 240, 41};

/* The answer, if it is one. Below 0 it is minus the number of a refusal, and
 * nothing was written, so that there is nothing to go on with. */
static int64_t good(int64_t answer)
{
    if (answer < 0) {
        fprintf(stderr, "refused %d\n", (int)-answer);
        exit(1);
    }
    return answer;
}

/* What edition 2 shows of an item. Its layout goes to layout. */
static void show_item(const uint8_t *stack, size_t len, uint64_t item,
                      uint8_t layout[LAYOUT])
{
    static const char *const access[] = {"closed", "community", "open"};
    uint64_t facts[4];
    int64_t index = good(imurraqi_stack_find(stack, len, 2, item));
    good(imurraqi_card_read(stack + CARD * index, CARD, 2, layout, facts));
    printf("item %" PRIu64 ": card %d of %zu, %" PRIu64 " by %" PRIu64 ", %s\n",
           facts[2], (int)index + 1, len / CARD, facts[0], facts[1],
           access[facts[3]]);
}

static void show_points(const uint16_t *codes, const float *values,
                        const uint16_t *colors, int count)
{
    for (int i = 0; i < count; i += 3)
        printf("Y'CbCr %d %d %d is %.4f %.4f %.4f, R'G'B' %d %d %d\n",
               codes[i], codes[i + 1], codes[i + 2], values[i], values[i + 1],
               values[i + 2], colors[i], colors[i + 1], colors[i + 2]);
}

/* The line's codes, values and colors, by a descriptor. */
static void show_line(const uint8_t *descriptor, size_t len)
{
    uint8_t layout[LAYOUT];
    uint16_t codes[CODES], colors[CODES];
    float values[CODES];
    uint32_t cuts;
    good(imurraqi_descriptor_read(descriptor, len, layout));
    good(imurraqi_unpack_line(layout, packed, sizeof packed, codes, CODES));
    good(imurraqi_ycbcr_to_rgb(layout[PRIMARIES], layout[DEPTH], layout[RANGE],
                               FULL, codes, CODES, colors, CODES, &cuts));
    good(imurraqi_decode_line(layout, packed, sizeof packed, values, CODES));
    printf("points of %d bits a channel in %d bytes\n", layout[DEPTH],
           layout[BYTES]);
    show_points(codes, values, colors, CODES);
    printf("cut: %d of %d codes of R'G'B'\n", (int)cuts, CODES);
}

/* The Cr of each point, without the other channels: only the bytes that hold its
 * field are read. */
static void show_fields(const uint8_t layout[LAYOUT])
{
    uint8_t first;
    int64_t count = good(imurraqi_field_bytes(layout, CR, &first));
    printf("Cr alone, %d bytes from byte %d of each point:", (int)count, first);
    for (int i = 0; i < POINTS; i++) {
        const uint8_t *point = packed + i * layout[BYTES];
        int64_t code =
            good(imurraqi_field_code(layout, CR, point + first, (size_t)count));
        printf(" %d", (int)code);
    }
    printf("\n");
}

/* Codes beyond the ends of narrow range, which video keeps for timing. They are
 * packed and decoded as they are, but encoding makes the nearer end of them, and
 * tells how many it cut so. */
static void show_ends(const uint8_t layout[LAYOUT])
{
    static const uint16_t codes[3] = {1023, 0, 512};
    uint16_t made[3];
    float values[3];
    uint8_t point[8];
    uint32_t cuts;
    size_t len = layout[BYTES];
    good(imurraqi_pack_line(layout, codes, 3, point, len));
    good(imurraqi_decode_point(layout, point, len, values));
    good(imurraqi_encode_point(layout, values[0], values[1], values[2], point,
                               len, &cuts));
    good(imurraqi_unpack_line(layout, point, len, made, 3));
    printf("Y'CbCr %d %d %d decoded and encoded: %d %d %d, cut: %d\n", codes[0],
           codes[1], codes[2], made[0], made[1], made[2], (int)cuts);
}

/* The card of an item whose layout the edition has, and none before it: a station
 * that is still at the edition before can't write or read such a card. */
static void show_card(const uint8_t of[LAYOUT], uint64_t item, uint8_t edition)
{
    uint8_t card[CARD], layout[LAYOUT];
    uint64_t facts[4];
    printf("its card at edition %d: %d\n", edition - 1,
           (int)imurraqi_card_write(edition - 1, of, 720, 576, item, COMMUNITY,
                                    card, CARD));
    good(imurraqi_card_write(edition, of, 720, 576, item, COMMUNITY, card,
                             CARD));
    good(imurraqi_card_read(card, CARD, edition, layout, facts));
    printf("its card at edition %d: for editions from %d, item %" PRIu64 "\n",
           edition, card[0], facts[2]);
    printf("that card at edition %d: %d\n", edition - 1,
           (int)imurraqi_card_read(card, CARD, edition - 1, layout, facts));
}

/* An early capture in today's full range, and its card. Edition 3 has its range. */
static void show_early(void)
{
    uint16_t codes[EARLY_CODES], colors[EARLY_CODES];
    float values[EARLY_CODES];
    uint32_t cuts;
    good(imurraqi_unpack_line(early_layout, early, sizeof early, codes,
                              EARLY_CODES));
    good(imurraqi_decode_line(early_layout, early, sizeof early, values,
                              EARLY_CODES));
    good(imurraqi_ycbcr_to_rgb(early_layout[PRIMARIES], early_layout[DEPTH],
                               LEGACY_FULL, FULL, codes, EARLY_CODES, colors,
                               EARLY_CODES, &cuts));
    printf("an early capture\n");
    show_points(codes, values, colors, EARLY_CODES);
    show_card(early_layout, 12, 3);
}

/* A line of groups: both points of a group have its Cb and Cr. Encoding takes those of
 * the first; the second's are not looked at, so that nothing need stand there. Three
 * points are no groups. Edition 4 has such cards, and no descriptor has groups. */
static void show_tape(void)
{
    uint8_t made[TAPE], descriptor[DESCRIPTOR];
    uint16_t codes[CODES], colors[CODES];
    float values[CODES];
    uint32_t cuts;
    good(imurraqi_unpack_line(tape_layout, tape, TAPE, codes, CODES));
    good(imurraqi_decode_line(tape_layout, tape, TAPE, values, CODES));
    good(imurraqi_ycbcr_to_rgb(tape_layout[PRIMARIES], tape_layout[DEPTH],
                               NARROW, FULL, codes, CODES, colors, CODES,
                               &cuts));
    printf("a tape, %d points in groups of two\n", POINTS);
    show_points(codes, values, colors, CODES);
    for (int i = 3; i < CODES; i += 6)
        values[i + 1] = values[i + 2] = NAN;
    good(imurraqi_encode_line(tape_layout, values, CODES, made, TAPE, &cuts));
    printf("encoded, %s bytes, cut: %d\n",
           memcmp(made, tape, TAPE) == 0 ? "the same" : "other", (int)cuts);
    printf("three points of it: %d\n",
           (int)imurraqi_encode_line(tape_layout, values, 9, made, TAPE, &cuts));
    printf("its descriptor: %d\n",
           (int)imurraqi_descriptor_write(tape_layout, descriptor,
                                          sizeof descriptor));
    show_card(tape_layout, 13, 4);
}

/* Room for so many bytes. */
static uint8_t *room(int64_t len)
{
    uint8_t *bytes = malloc((size_t)len);
    if (bytes == NULL) {
        fprintf(stderr, "no memory\n");
        exit(1);
    }
    return bytes;
}

/* The file of an open card's picture, and its length. For the community the same card
 * is refused. */
static uint8_t *show_export(const uint8_t *card, size_t card_len,
                            const uint8_t *points, size_t len, size_t *file_len)
{
    uint8_t for_community[CARD];
    uint64_t sum = 0;
    int64_t told = good(imurraqi_ppm_export_len(card, card_len, 2));
    uint8_t *file = room(told);
    *file_len = (size_t)told;
    int64_t count = good(
        imurraqi_ppm_export(card, card_len, 2, points, len, file, *file_len));
    printf("a picture, %d points in a file of %d bytes\n", (int)count,
           (int)told);
    printf("it begins");
    for (int i = 0, at = 0; i < 3; i++, at++) {
        printf(i == 0 ? " " : ", ");
        for (; file[at] != '\n'; at++)
            putchar(file[at]);
    }
    for (size_t i = 0; i < *file_len; i++)
        sum += file[i];
    printf("; its bytes add up to %" PRIu64 "\n", sum);
    memcpy(for_community, card, CARD);
    for_community[ACCESS] = COMMUNITY;
    printf("for the community: %d\n",
           (int)imurraqi_ppm_export_len(for_community, CARD, 2));
    return file;
}

/* A card and points of a file. It cannot tell who may see it, so the card is closed,
 * and is not exported until somebody opens it. A file that is cut short is refused. */
static void show_import(const uint8_t *file, size_t len)
{
    static const char *const paints[] = {"ochre", "white", "red earth"};
    uint8_t card[CARD], layout[LAYOUT];
    uint64_t facts[4];
    int64_t told = good(imurraqi_ppm_import_len(file, len));
    uint8_t *points = room(told);
    int64_t count = good(imurraqi_ppm_import(file, len, 600002, BT709, card,
                                             CARD, points, (size_t)told));
    good(imurraqi_card_read(card, CARD, 2, layout, facts));
    printf("imported, %d points of %d bits in %d bytes: item %" PRIu64
           ", %" PRIu64 " by %" PRIu64 ", access %" PRIu64 "\n",
           (int)count, layout[DEPTH], layout[BYTES], facts[2], facts[0],
           facts[1], facts[3]);
    /* Of the last line, whose three paints lie side by side. */
    size_t line = (size_t)facts[0] * layout[BYTES];
    const uint8_t *last = points + (size_t)told - line;
    for (int i = 0; i < 3; i++) {
        uint16_t codes[3];
        good(imurraqi_unpack_line(layout, last + 32 * i * layout[BYTES],
                                  layout[BYTES], codes, 3));
        printf("%s: R'G'B' %d %d %d\n", paints[i], codes[0], codes[1],
               codes[2]);
    }
    printf("exported again: %d\n", (int)imurraqi_ppm_export_len(card, CARD, 2));
    printf("cut short: %d\n", (int)imurraqi_ppm_import_len(file, 13));
    free(points);
}

/* As many bytes of a file as there are, or as there is room for. */
static size_t load(const char *name, uint8_t *bytes, size_t len)
{
    FILE *file = fopen(name, "rb");
    if (file == NULL) {
        fprintf(stderr, "usage: example STACK CARD PACKED [PPM]\n");
        exit(2);
    }
    len = fread(bytes, 1, len, file);
    fclose(file);
    return len;
}

int main(int argc, char **argv)
{
    /* One more of each, so that a longer file is refused. */
    static uint8_t stack[STACK + 1], points[PICTURE + 1];
    uint8_t card[CARD + 1], layout[LAYOUT], descriptor[DESCRIPTOR];
    if (argc < 4) {
        fprintf(stderr, "usage: example STACK CARD PACKED [PPM]\n");
        return 2;
    }
    size_t len = load(argv[1], stack, sizeof stack);
    size_t card_len = load(argv[2], card, sizeof card);
    size_t points_len = load(argv[3], points, sizeof points);

    show_item(stack, len, 203002, layout);
    good(imurraqi_descriptor_write(layout, descriptor, sizeof descriptor));
    show_line(descriptor, sizeof descriptor);
    show_fields(layout);
    show_ends(layout);
    /* A refusal is an answer too. 15: no card of the stack has the item. */
    printf("item 7: %d\n", (int)imurraqi_stack_find(stack, len, 2, 7));
    show_early();
    show_tape();
    size_t file_len;
    uint8_t *file = show_export(card, card_len, points, points_len, &file_len);
    show_import(file, file_len);
    FILE *ppm = argc > 4 ? fopen(argv[4], "wb") : NULL;
    if (argc > 4 && (ppm == NULL || fwrite(file, 1, file_len, ppm) != file_len ||
                     fclose(ppm) != 0)) {
        perror("PPM");
        return 1;
    }
    free(file);
    return 0;
}
