/* The C interface of libimurraqi.a.
 *
 * Every function answers a number of 0 or more, or minus the number of its
 * refusal (-1 .. -18, see below). On a refusal nothing behind any pointer
 * changes. docs/PROMISES.md says what is proved of each function.
 *
 * An array of any length is a pointer and then its length in elements. No
 * pointer is null, of an empty array neither, and what a function writes to
 * overlaps nothing else that it is given.
 *
 * A layout is nine bytes, in this order: model, primaries, range, depth, bytes
 * a point, the bit offsets of channels 0, 1 and 2, and the sampling.
 *
 *   model      1 R'G'B', 2 Y'CbCr
 *   primaries  1 BT.709, 2 BT.601 EBU, 3 BT.601 SMPTE, 4 BT.2020
 *   range      1 narrow, 2 full, 3 legacy full (the older full range, of
 *              BT.2100-0 and JFIF)
 *   depth      8, 10 or 12 bits a channel
 *   bytes      3 to 8
 *   sampling   0 points of their own, 1 groups of two points that share Cb and Cr
 *
 * A group is four bytes, Cb, Y', Cr, Y', of 8 bits each: Cb and Cr are those of
 * both points, the first Y' is the first point's. Its layout has model 2, depth 8,
 * bytes 4 (those of the group) and offsets 0. Lines, cards and their histories, and
 * pictures may be of groups. Descriptors, single points and single fields may not: 9.
 *
 * Cards have editions, 1 to 4. Edition 1 has narrow and full range at 8 and 10
 * bits, and no access: all is closed. Edition 2 also has 12 bits and access,
 * edition 3 also has legacy full range, at every depth, and edition 4 also has
 * groups.
 *
 * Refusals:
 *
 *    1  wrong length of a descriptor (76), a card (32) or a stack (whole cards,
 *       1,024 at most)
 *    2  wrong header of a descriptor    3  wrong model or colors in it
 *    4  wrong planes in it              5  wrong sample in it
 *    6  its samples state no one range
 *    7  unknown edition: not 1 to 4     8  a card for later editions only
 *    9  a number, field or layout that is none of these
 *   10  unknown access in a card, written at 2 or later and not later than the
 *       edition asked                  11  the edition lacks the layout or access
 *   12  not-a-number
 *   13  a line not of whole points or groups or of over 4,096 points, not exactly
 *       the bytes of a field or of a picture, or an output not exactly as long as
 *       needed
 *   14  a code too high for its depth  15  no such item
 *   16  of groups: an odd width, or an odd count of whole points to encode or
 *       pack
 *   17  the card is not open, so that no picture is made of it
 *   18  a picture file without a header of the form that is accepted, or with a
 *       code above the largest that its header tells */
#ifndef IMURRAQI_H
#define IMURRAQI_H

#include <stddef.h>
#include <stdint.h>

#ifdef __cplusplus
extern "C" {
#endif

/* The layout that a descriptor tells, of points of their own. Answers 0. Refused:
 * 1 to 6, in this order. layout: the nine bytes of the layout read. */
int64_t imurraqi_descriptor_read(const uint8_t *bytes, size_t len,
                                 uint8_t layout[9]);

/* Writes the descriptor of a layout, 76 bytes. Answers 0.
 * Refused: 9, for groups too, then 13. */
int64_t imurraqi_descriptor_write(const uint8_t layout[9], uint8_t *out,
                                  size_t out_len);

/* The float of a code: the f32 nearest to the fraction that it stands for. Every
 * code of the depth stands for one, those that its range never makes too. Answers
 * 0 for a brightness, 1 for a difference. Refused: 9, then 14.
 * value: one float. */
int64_t imurraqi_dequantize(uint8_t model, uint8_t range, uint8_t depth,
                            uint8_t channel, uint16_t code, float *value);

/* The code of a float, worked out from its exact value and clamped to the codes
 * that its range makes. Narrow range makes 1 to 254, 4 to 1019 and 16 to 4079 at
 * 8, 10 and 12 bits, since video keeps the codes beyond for timing. Legacy full
 * range makes none above 4092 at 12 bits. Infinities give the ends. Refused: 9,
 * then 12.
 * cuts: 1 if the value was cut, else 0. It was cut if its rounded number lay
 * beyond the ends, so that the clamp moved it; an infinity always is. */
int64_t imurraqi_quantize(uint8_t model, uint8_t range, uint8_t depth,
                          uint8_t channel, float value, uint32_t *cuts);

/* Decodes one point, as a line of one point is: three floats in channel order.
 * Answers 1. Refused: 9, for groups too, then 13. point: three floats. */
int64_t imurraqi_decode_point(const uint8_t layout[9], const uint8_t *bytes,
                              size_t len, float point[3]);

/* The floats of a line of packed points or groups, three a point in channel order,
 * each that of imurraqi_dequantize: every code is taken. Both points of a group
 * have its Cb and Cr. Answers the count of points, two a group. Refused: 9, then
 * 13. */
int64_t imurraqi_decode_line(const uint8_t layout[9], const uint8_t *packed,
                             size_t len, float *out, size_t out_len);

/* Encodes one point, as a line of one point is. Answers 1. Refused: 9, for groups
 * too, then 13, then 12. cuts: how many of its three values were cut. */
int64_t imurraqi_encode_point(const uint8_t layout[9], float channel0,
                              float channel1, float channel2, uint8_t *out,
                              size_t out_len, uint32_t *cuts);

/* Encodes a line of values, three a point in channel order, to packed points or
 * groups, each value as the code that imurraqi_quantize answers. A group takes Cb
 * and Cr of its first point; those of the second are not looked at, and may be
 * not-a-number. Answers the count of points. Refused: 9, then of groups 16 for
 * an odd count of whole points, then 13, then 12.
 * cuts: how many of the values that are looked at were cut, as imurraqi_quantize
 * tells it of each. */
int64_t imurraqi_encode_line(const uint8_t layout[9], const float *values,
                             size_t len, uint8_t *out, size_t out_len,
                             uint32_t *cuts);

/* How many bytes of a point hold the field of a channel: one to three, side by
 * side. Refused: 9, for groups too.
 * first: the place of the first of them in the point, from 0. */
int64_t imurraqi_field_bytes(const uint8_t layout[9], uint8_t channel,
                             uint8_t *first);

/* The code of a channel, from only the bytes that hold its field, as
 * imurraqi_field_bytes tells them. Bits in them that are not the field's are not
 * looked at. Refused: 9, for groups too, then 13 for any other number of bytes. */
int64_t imurraqi_field_code(const uint8_t layout[9], uint8_t channel,
                            const uint8_t *bytes, size_t len);

/* The codes of a line of packed points or groups, three a point in channel order.
 * Both points of a group have its Cb and Cr. Answers the count of points, two a
 * group. Refused: 9, then 13. */
int64_t imurraqi_unpack_line(const uint8_t layout[9], const uint8_t *packed,
                             size_t len, uint16_t *out, size_t out_len);

/* Packs a line of codes, three a point in channel order, to points or groups;
 * unused bits are zero. Codes are packed as they are: none is clamped, not even in
 * narrow range. A group takes Cb and Cr of its first point; those of the second are
 * not looked at, and may be any. Answers the count of points. Refused: 9, then of
 * groups 16 for an odd count of whole points, then 13, then 14. */
int64_t imurraqi_pack_line(const uint8_t layout[9], const uint16_t *codes,
                           size_t len, uint8_t *out, size_t out_len);

/* Converts a line of codes of R', G', B', three a point, to Y', Cb, Cr by the
 * weights of the primaries, into an array of the same length. range_in is the
 * range of codes, range_out that of out: any range on either side. Any code of the
 * depth may be given; those made are clamped as imurraqi_quantize clamps them.
 * Answers the count of points. Refused: 9, then 13, then 14.
 * cuts: how many of the codes made were cut: their rounded numbers lay beyond the
 * ends of range_out. Where that is full range, a half is rounded away from 0, and
 * -1/2 is cut; in legacy full range it is rounded up, to 0, and is not. */
int64_t imurraqi_rgb_to_ycbcr(uint8_t primaries, uint8_t depth,
                              uint8_t range_in, uint8_t range_out,
                              const uint16_t *codes, size_t len, uint16_t *out,
                              size_t out_len, uint32_t *cuts);

/* Converts a line of codes of Y', Cb, Cr to R', G', B' likewise.
 * There and back, in ranges narrow and full: codes of R', G', B' converted to Y', Cb,
 * Cr and back to the first range come back within 1, but full-range ones by way of
 * narrow Y', Cb, Cr within 2. Of narrow ones this holds from black to white: 16 to
 * 235, 64 to 940, 256 to 3760. */
int64_t imurraqi_ycbcr_to_rgb(uint8_t primaries, uint8_t depth,
                              uint8_t range_in, uint8_t range_out,
                              const uint16_t *codes, size_t len, uint16_t *out,
                              size_t out_len, uint32_t *cuts);

/* What a card shows at an edition, 1 to 4. Answers 0. Refused: 1, 7, 9 where
 * byte 0 is 0, 8, 9 for bytes 1 to 23 and a byte 0 that is not the layout's, 16
 * for an odd width of groups, 10, 9 for bytes 24 to 31.
 * layout: the nine bytes of its layout. facts: width, height, item, access
 * (0 closed, 1 community, 2 open). */
int64_t imurraqi_card_read(const uint8_t *card, size_t len, uint8_t edition,
                           uint8_t layout[9], uint64_t facts[4]);

/* Writes the card of a layout, a size, an item and an access at an edition, 32
 * bytes. Answers 0. Refused: 7, 9, 16 for an odd width of groups, 11, 13. */
int64_t imurraqi_card_write(uint8_t edition, const uint8_t layout[9],
                            uint16_t width, uint16_t height, uint64_t item,
                            uint8_t access, uint8_t *out, size_t out_len);

/* Reads a card at an edition and writes what it shows at the same edition to
 * another 32 bytes. Answers 0. Refused: as imurraqi_card_read, then 13. */
int64_t imurraqi_card_rewrite(const uint8_t *card, size_t len, uint8_t edition,
                              uint8_t *out, size_t out_len);

/* The history of one card. Writes a card of a layout, a size, an item and an
 * access at edition first; rewrites it at each of the editions, into so many bytes
 * of outputs as lengths says, one after the other; reads it at edition last; and
 * decodes packed by the layout that is read. Answers 0. Refused: 7, 9, 16 or 11
 * as the first writing is; then 13 where card is not 32 bytes, editions, lengths
 * and answers are not of one length, or the lengths are not outputs_len in all.
 * card: the card last written. answers: for each rewrite 0, or its refusal's
 * number. read: 0, the nine numbers of the layout, width, height, item, access,
 * or the last reading's refusal and zeros. decoded: 0 and the count of points, or
 * the refusal's number and 0; a refused reading decodes nothing. */
int64_t imurraqi_replay(uint8_t first, const uint8_t layout[9], uint16_t width,
                        uint16_t height, uint64_t item, uint8_t access,
                        uint8_t *card, size_t card_len,
                        const uint8_t *editions, size_t editions_len,
                        const size_t *lengths, size_t lengths_len,
                        uint8_t *outputs, size_t outputs_len,
                        uint8_t *answers, size_t answers_len, uint8_t last,
                        const uint8_t *packed, size_t packed_len, float *values,
                        size_t values_len, uint64_t read[14],
                        uint64_t decoded[2]);

/* The index, from 0, of the first card of a stack that the edition reads and
 * that has the item's number: its bytes begin at stack + 32 * index. Cards that
 * are refused are passed over. Refused: 1, 7, 15. */
int64_t imurraqi_stack_find(const uint8_t *stack, size_t len, uint8_t edition,
                            uint64_t item);

/* Writes the picture of an open card as a file that others read: binary PPM
 * (Netpbm's P6). packed: all lines of the picture, one after the other with nothing
 * between them: width times height points, or half as many groups. Every point becomes full-range R', G', B' of its
 * depth: full-range codes stay as they are, narrow ones are converted from their
 * exact fractions and rounded once, and Y', Cb, Cr as imurraqi_ycbcr_to_rgb does
 * by the card's primaries. The file begins with the text
 * "P6\nWIDTH HEIGHT\nLARGEST\n", in which LARGEST is 255, 1023 or 4095, the
 * largest code of the depth, and no decimal number begins with a zero. R', G', B' of
 * each point follow, big-endian: a byte each at 8 bits, else two. Answers the count
 * of points, up to 16,777,216. Refused: as imurraqi_card_read, then 9 for legacy full
 * range, then 17 where the edition does not show the card as open (edition 1 shows
 * none so), then 13 where packed is not exactly the picture's bytes or out not
 * exactly as long as the file. */
int64_t imurraqi_ppm_export(const uint8_t *card, size_t card_len,
                            uint8_t edition, const uint8_t *packed,
                            size_t packed_len, uint8_t *out, size_t out_len);

/* How many bytes the file has that imurraqi_ppm_export writes of a card.
 * Refused: as imurraqi_card_read, then 9 for legacy full range, then 17. */
int64_t imurraqi_ppm_export_len(const uint8_t *card, size_t card_len,
                                uint8_t edition);

/* Reads a picture file and makes a card and packed points of it. The file has
 * exactly the form that imurraqi_ppm_export writes, with sides of 1 to 4,096 and
 * nothing after the points; other headers that PPM allows are not taken. A file
 * cannot tell who may see it, so the card is closed. It is written at edition 2, with
 * the item and primaries given, as full-range R', G', B' of 8, 10 or 12 bits in 3, 4
 * or 5 bytes a point, side by side from bit 0. Answers the count of points. Refused:
 * 9 for item 0 or unknown primaries; 18 where the file does not begin with such a
 * header, whole; 13 where what follows it is not exactly the points' bytes, card is
 * not 32 bytes, or packed is not exactly as long as needed; 18 for a code above the
 * largest. */
int64_t imurraqi_ppm_import(const uint8_t *ppm, size_t len, uint64_t item,
                            uint8_t primaries, uint8_t *card, size_t card_len,
                            uint8_t *packed, size_t packed_len);

/* How many bytes of packed points imurraqi_ppm_import makes of a picture file. Only
 * the header is looked at: what follows it may be anything, or nothing. Refused: 18. */
int64_t imurraqi_ppm_import_len(const uint8_t *ppm, size_t len);

#ifdef __cplusplus
}
#endif

#endif
