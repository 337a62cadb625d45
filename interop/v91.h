/*
 * V.91 line codec: the C interface of libv91_c.a.
 *
 * Bits: bit n of a bit string is in byte n / 8 with weight 1 << n % 8; bit 0 is first in time.
 *
 * Record, 105 bytes: granted (flag), drn, acknowledge (flag), six interval indices, then twelve mask
 * halves of 8 bytes, low byte first. Half 2 m has Ucodes 0 to 63 of mask m, half 2 m + 1 has 64 to 127.
 *
 * Line state, 21 bytes: the history in 4 bytes, low byte first, the last sign (flag), a count of doubtful
 * bits, 0 to 24, then of the control channel the frame place, 0 to 63, the sequence place, 0 to 15, the 96 bits of a
 * sequence in 12 bytes, and whether a frame of it was lost (flag). A fresh state is 21 zeros; a receiver told that it
 * begins cold has V91_COLD, 24, in byte 5. Each call of an end takes the state that the call before it left.
 *
 * The count is how many of the bits to come are to be distrusted: a marked frame sets it to 24, a good frame lowers
 * it by its data bits, not below 0, and the sender leaves it as it is. If every frame that the line alters is marked,
 * and the receiver begins cold or in the sender's state (history and last sign), then the bits of a good frame past as
 * many as the count before it are the bits sent. The count changes no octet, bit or mark.
 *
 * The control channel is on in a call where `control` is true. Then a frame at frame place 0 is a control frame: its
 * six signs carry six bits of the channel, so that it has drn + 14 data bits in place of drn + 20, and after each frame
 * the frame place goes up by one, modulo 64. Sixteen control frames make a sequence of 96 bits; the sequence place is
 * how many of them are done. Where the channel is off, all fields of it stay as they are. Both ends have to make the
 * same choice at each frame and to begin at the same places. A call has 1,024 frames at most, so that at most one
 * sequence starts in it and at most one ends.
 *
 * A circuit that begins with a CP goes on from it into data: v91_send_cp sends the CP and E_s, one scrambled and
 * differentially coded bit per octet as the sign of Ucode 66, and leaves the line state in which v91_send begins. The
 * history and the last sign that it leaves follow from the last 24 octets alone, whatever the state before them, so that
 * v91_find_state gives the far end the state in which v91_receive begins: every bit is then as sent, from the first.
 *
 * Settings file: for each junction the CP that is its current setting, and the previous one where there is one. An
 * entry is the junction number in 2 bytes, one byte for current (0) or previous (1), one byte of CP length in bytes,
 * the CP's bytes, and the start of the entry before it, the first pointing to itself. Entries lie end to end from place
 * 0, by rising junction number, for each one current and then at most one previous. The trailer follows: the count of
 * the entries, the start of the last entry, 0 where there is none, and last a version byte, 1 or 2. In version 1 a
 * start has 2 bytes and the count 1, and there are at most 40 junctions; in version 2 a start has 4 bytes and the count
 * 2, and there are at most 400. Numbers are low byte first. A file without entries is V91_EMPTY_FILE, of version 1, or
 * V91_EMPTY_FILE_2. v91_put makes a record's CP the current setting, the current one before it the previous one, and
 * drops the older one; v91_go_back exchanges the two; the CP bytes of every other setting stay as they are. Both keep
 * the version, save that a put of a 41st junction turns version 1 into version 2, which shows every setting as version
 * 1 did and has 2 bytes more for each entry and 3 more of trailer; nothing turns version 2 into version 1. Both read
 * the whole of `file`, check each CP in it, and write the file afresh into `out`, which is another buffer. A refused
 * call changes nothing, so that the caller keeps the file that it has until the answer is a length. v91_look_up shows
 * the setting last put or gone back to.
 *
 * A flag counts as 1 where its byte is not 0, and is written as 0 or 1.
 *
 * Any arguments are allowed, as long as each pointer leads to as many elements as its length says (with
 * length 0 it may be null), `samples` is aligned as int32_t is, and the buffers do not overlap. A refused
 * call changes no buffer. Elements beyond those named below stay as they are.
 *
 * The refusals are listed in the order in which they are looked at; the first that applies is answered. A
 * record or line state that is read or updated and is lent in fewer bytes than it has is answered with 16
 * before everything else, in the order of the parameters, since nothing can be said of it.
 *
 * The archive is for x86-64 with the System V calling convention; the toolchain makes no other. It has no
 * data that is written: the functions keep nothing between calls and are reentrant, each call on buffers of
 * its own. They allocate nothing, call no function but memset, and return. The stack is to be aligned to 16
 * bytes at the call, as the convention says. SSE registers are used (xmm0 to xmm15), so an interrupt that
 * calls a function has to save them; so is the red zone, 128 bytes below the stack pointer. Measured by
 * interop/footprint in calls of 1,024 frames with six full masks, and with a full settings file, the red zone
 * included: 39,931 bytes of code and 1,368 of constants; of stack 952 bytes (v91_write_cp), 928 (v91_read_cp),
 * 2,752 (v91_send), 2,704 (v91_receive), 8 (v91_linear), 144 (v91_send_dil), 920 (v91_send_cp), 8
 * (v91_find_state), 56 (v91_plan), 1,632 (v91_put), 1,200 (v91_go_back) and 1,344 (v91_look_up).
 */
#ifndef V91_H
#define V91_H

#include <stdbool.h>
#include <stddef.h>
#include <stdint.h>

#ifdef __cplusplus
extern "C" {
#endif

/* Raised where a function is added, or a function, a layout or an answer changes. */
#define V91_VERSION 8

/* ---- refusals */

enum v91_refusal {
    V91_COUNT_EXCEEDS_BYTES = 1,     /* the bit count exceeds 8 x the bytes lent */
    V91_COUNT_TOO_SMALL = 2,         /* the bit count is below 294 */
    V91_SYNC_BROKEN = 3,             /* one of bits 0 to 16 is 0 */
    V91_INDEX_TOO_LARGE = 4,         /* an interval index exceeds 5 */
    V91_LENGTH_WRONG = 5,            /* the bit count is not the length for the largest index */
    V91_START_BIT_SET = 6,           /* a start bit is 1 */
    V91_CRC_MISMATCH = 7,            /* the CRC does not match */
    V91_FIXED_BIT_WRONG = 8,         /* bit 19 is 0, or one of 30 to 32 or 128 is 1 */
    V91_DRN_TOO_LARGE = 9,           /* drn exceeds 28 */
    V91_GRANTED_BELOW_FULL_RATE = 10,/* granted is 1 and drn is not 28 */
    V91_INTERVAL_EMPTY = 25,         /* drn is 1 to 28 and an interval's mask is empty; see V91_INTERVAL */
    V91_PRODUCT_TOO_SMALL = 11,      /* drn is 1 to 28 and the product of the six mask sizes is below 2^K */
    V91_MASK_ABOVE_INDICES = 12,     /* a mask above the largest index is not empty */
    V91_FRAMES_AT_CLEARDOWN = 13,    /* there are frames and drn is 0 */
    V91_HISTORY_TOO_LARGE = 14,      /* the history is 2^23 or more */
    V91_DOUBTFUL_TOO_LARGE = 18,     /* the count of doubtful bits exceeds 24 */
    V91_PLACE_TOO_LARGE = 19,        /* the frame place exceeds 63 or the sequence place 15 */
    V91_TOO_MANY_FRAMES = 15,        /* there are more than 1,024 frames */
    V91_INPUT_TOO_SHORT = 16,        /* a buffer to be read is shorter than needed */
    V91_FILE_BROKEN = 22,            /* the settings file breaks its rules, or a CP in it is refused */
    V91_SETTING_MISSING = 23,        /* the junction, or going back its previous setting, is not in the file */
    V91_TOO_MANY_JUNCTIONS = 24,     /* the put would make a 401st junction */
    V91_RATE_OR_SPACING_OUTSIDE = 26,/* K is outside 15 to 42, or the spacing outside 1 to 65,535 */
    V91_NO_MASK = 27,                /* no mask of M points keeps the spacing */
    V91_SUM_EXCEEDS_CEILING = 28,    /* the least sum of squares exceeds the ceiling */
    V91_OUTPUT_TOO_SHORT = 17        /* a buffer to be written is shorter than needed */
};

/* Whether an answer is a refusal: it is 1 to 19, 22 to 24, 26 to 28, or 25 + (interval << 24). Else it is 0 or a count,
   which is 47 or more: the bit count of v91_write_cp, 294 to 972, the octet count of v91_send_cp, 306 to 984, the 1,500
   octets of v91_send_dil, or a file's length in bytes, of v91_put 47 to 104,007 and of v91_go_back 90 to 104,007. */
#define V91_REFUSED(answer) ((answer) != 0 && ((answer) < 47 || (answer) >= 1u << 24))

/* Of an answer that is a refusal: its number; and with V91_INTERVAL_EMPTY the lowest such interval, 0 to 5. */
#define V91_NUMBER(answer) ((answer) & 0xff)
#define V91_INTERVAL(answer) ((answer) >> 24)

/* ---- the record, by the places of its bytes */

#define V91_RECORD_BYTES 105
#define V91_RECORD_GRANTED 0
#define V91_RECORD_DRN 1
#define V91_RECORD_ACKNOWLEDGE 2
#define V91_RECORD_INDEX(interval) (3 + (interval))         /* interval 0 to 5 */
#define V91_RECORD_UCODE(mask, u) (9 + 16 * (mask) + (u) / 8) /* mask 0 to 5; Ucode u is the bit of weight 1 << u % 8 */

/* ---- the line state */

#define V91_STATE_BYTES 21
#define V91_STATE_HISTORY 0                                  /* 4 bytes */
#define V91_STATE_SIGN 4
#define V91_STATE_DOUBTFUL 5                                 /* 0 to 24 */
#define V91_COLD 24                                          /* its value where a receiver begins cold */
#define V91_STATE_FRAME_PLACE 6                              /* 0 to 63; 0 for a control frame */
#define V91_STATE_SEQUENCE_PLACE 7                           /* 0 to 15 control frames done */
#define V91_STATE_SEQUENCE 8                                 /* 12 bytes: a sender's sequence, a receiver's bits so far */
#define V91_STATE_LOST 20

/* ---- the control channel: the 56 bits that v91_send is handed, and what v91_receive writes into `heard` */

#define V91_CLEARDOWN 1u                                     /* bit 0: bit 16 of the sequence */
#define V91_RETRAIN 2u                                       /* bit 1: bit 17 of the sequence */
#define V91_SECONDARY(data) ((uint64_t)(data) << 2)          /* bits 2 to 55: bits 24 to 77, secondary channel data */

#define V91_HEARD_BYTES 8                                    /* byte 0, one of those below; then the 56 bits in 7 bytes */
enum v91_heard {
    V91_HEARD_NONE = 0,              /* no sequence ends in the call */
    V91_HEARD_SEQUENCE = 1,          /* one does, and its 56 bits follow; they are zeros with all others */
    V91_HEARD_FRAME_LOST = 2,        /* one does, and a control frame of it was marked */
    V91_HEARD_PATTERN_WRONG = 3,     /* one does, and bits 0 to 15 are not the pattern */
    V91_HEARD_CRC_WRONG = 4          /* one does, and the CRC does not match */
};

/* ---- a plan: one mask, and the sum of the squared linear values of its points */

#define V91_PLAN_BYTES 24
#define V91_PLAN_MASK 0                                      /* 16 bytes: Ucodes 0 to 63, then 64 to 127 */
#define V91_PLAN_SUM 16                                      /* 8 bytes */

/* ---- lengths */

#define V91_FRAME_BITS(drn) ((size_t)(drn) + 20)             /* D: the data bits of a frame; drn 1 to 28 */
#define V91_DATA_BITS(frames, drn) ((size_t)(frames) * V91_FRAME_BITS(drn))
#define V91_DATA_BYTES(frames, drn) ((V91_DATA_BITS(frames, drn) + 7) / 8)

/* With the control channel on: how many control frames so many frames from a frame place on have, and their data. */
#define V91_CONTROL_FRAMES(frames, place) (((size_t)(frames) + ((size_t)(place) + 63) % 64) / 64)
#define V91_DATA_BITS_ON(frames, drn, place) (V91_DATA_BITS(frames, drn) - 6 * V91_CONTROL_FRAMES(frames, place))
#define V91_DATA_BYTES_ON(frames, drn, place) ((V91_DATA_BITS_ON(frames, drn, place) + 7) / 8)

#define V91_OCTETS(frames) ((size_t)(frames) * 6)

#define V91_FRAMES 1024                                      /* the most frames of a call, */
#define V91_FRAMES_DATA_BYTES 6144                           /* the most bytes of data that it needs, */
#define V91_FRAMES_OCTETS 6144                               /* and the most octets */
#define V91_CP_BITS 972                                      /* the longest CP */
#define V91_CP_BYTES 122
#define V91_DIL_OCTETS 1500                                  /* the default DIL */
#define V91_CP_OCTETS(bit_count) ((size_t)(bit_count) + 12)  /* a CP of so many bits and E_s on the line */
#define V91_START_OCTETS 984                                 /* the longest CP and E_s */
#define V91_FIND_OCTETS 24                                   /* the octets from which a line state is found */

/* ---- the settings file */

#define V91_EMPTY_FILE { 0, 0, 0, 1 }                        /* the bytes of a file without entries, for an array */
#define V91_ENTRY_BYTES(bit_count) (((size_t)(bit_count) + 7) / 8 + 6) /* of an entry with a CP of so many bits */
#define V91_TRAILER_BYTES 4
#define V91_JUNCTIONS_1 40                                   /* the most junctions of a file of version 1, */
#define V91_FILE_BYTES_1 10244                               /* and the longest one */

/* The same in version 2, whose longest file is the longest of all: `out` is never too short then. */
#define V91_EMPTY_FILE_2 { 0, 0, 0, 0, 0, 0, 2 }
#define V91_ENTRY_BYTES_2(bit_count) (((size_t)(bit_count) + 7) / 8 + 8)
#define V91_TRAILER_BYTES_2 7
#define V91_JUNCTIONS 400
#define V91_FILE_BYTES 104007

/* ---- functions */

/* Reads the CP of bit_count bits into the record. Answers 0 or a refusal: 1 to 10, 25, 11, and 17 last. */
uint32_t v91_read_cp(const uint8_t *cp, size_t cp_len, size_t bit_count,
                     uint8_t *record, size_t record_len);

/* Writes the record's CP, 37 to 122 bytes. Answers its bit count, which is 294 to 972, or a refusal:
   16 for a short record, 4, 9, 10, 25, 11, 12, 17. */
uint32_t v91_write_cp(const uint8_t *record, size_t record_len, uint8_t *cp, size_t cp_len);

/* Sends frames x (drn + 20) data bits, 6 fewer for each control frame, as 6 x frames octets. Where a sequence of the
   control channel starts in the call, it is made from the 56 bits of `sequence`; bits 56 to 63 are ignored, and so are
   all of them where none starts. Answers 0 or a refusal: 16 for a short record or state, 4, 9, 10, 25, 11 to 14, 18,
   19, 15, 16, 17. After 0 the state is the one left; a call of no frames writes no byte. */
uint32_t v91_send(const uint8_t *record, size_t record_len, bool a_law, size_t frames, bool control, uint64_t sequence,
                  const uint8_t *bits, size_t bits_len, uint8_t *octets, size_t octets_len,
                  uint8_t *state, size_t state_len);

/* Receives 6 x frames octets as frames x (drn + 20) data bits, 6 fewer for each control frame, with zeros up to the
   end of the last byte, and one mark for each frame. Writes 8 bytes of `heard`: what is heard of a sequence of the
   control channel that ends in the call. Answers 0 or a refusal: 16 for a short record or state, 4, 9, 10, 25, 11 to
   14, 18, 19, 15, 16, 17. After 0 the state is the one left; a call of no frames writes no byte but those of `heard`.
   Mark 0: a good frame. Mark 1 to 6: the first interval whose Ucode is not in its mask. Mark 7: the number is 2^K or
   more. The data bits of a marked frame are zeros; a marked control frame is lost to its sequence. */
uint32_t v91_receive(const uint8_t *record, size_t record_len, bool a_law, size_t frames, bool control,
                     const uint8_t *octets, size_t octets_len, uint8_t *bits, size_t bits_len,
                     uint8_t *marks, size_t marks_len, uint8_t *heard, size_t heard_len,
                     uint8_t *state, size_t state_len);

/* Turns each octet into its signed linear value; samples_len counts samples. Answers 0 or 17. */
uint32_t v91_linear(bool a_law, const uint8_t *octets, size_t octets_len,
                    int32_t *samples, size_t samples_len);

/* Writes the default DIL of V.91 Table 5, the whole sequence once. Answers its 1,500 octets, or 17. */
uint32_t v91_send_dil(bool a_law, uint8_t *octets, size_t octets_len);

/* Sends the record's CP and E_s, twelve zero bits, from the line state on, an octet for each bit. Answers the octet
   count, which is 306, 438, 576, 714, 846 or 984, or a refusal: 16 for a short record or state, 4, 9, 10, 25, 11, 12,
   14, 18, 19, 17; a record with drn 0 is sent. After a count the state is the one left: its history and last sign are
   written, its other bytes stay. */
uint32_t v91_send_cp(const uint8_t *record, size_t record_len, bool a_law, uint8_t *octets, size_t octets_len,
                     uint8_t *state, size_t state_len);

/* Finds the line state that a CP and E_s left from the last 24 of the octets, in either law, and writes its history
   and last sign into the state, whatever these were; its other bytes stay. Answers 0, or 16 where the state is short
   or there are fewer than 24 octets. */
uint32_t v91_find_state(const uint8_t *octets, size_t octets_len, uint8_t *state, size_t state_len);

/* Finds one mask for all six intervals with M points, M the least number with M^6 at least 2^K. Neighbouring
   linear values differ by at least the spacing, twice the smallest is at least the spacing, and of all such masks
   the sum of the squared linear values is least. Writes 24 bytes: the mask's two halves of 8 bytes, low byte
   first, as in a record, then that sum. Answers 0 or a refusal, which changes no byte: 26, 27, 28, and 17 last.
   In a record for it all six intervals name this mask and drn is K - 14. */
uint32_t v91_plan(uint32_t k, bool a_law, uint32_t spacing, uint64_t ceiling, uint8_t *plan, size_t plan_len);

/* Puts the record's CP into the settings file as the junction's current setting; the current one before it becomes the
   previous one, and the older one is dropped. Writes the file into `out`, of the same version, or of version 2 where
   this is the 41st junction of version 1. Answers its length in bytes, which is 47 to 104,007, or a refusal: 16 for a
   short record, 4, 9, 10, 25, 11, 12, 22, 24, 17; a record with drn 0 is put. */
uint32_t v91_put(const uint8_t *file, size_t file_len, uint16_t junction, const uint8_t *record, size_t record_len,
                 uint8_t *out, size_t out_len);

/* Exchanges the junction's current and previous settings. Writes the file into `out`, of the same version. Answers its
   length in bytes, which is that of `file` and 90 to 104,007, or a refusal: 22, 23, 17. */
uint32_t v91_go_back(const uint8_t *file, size_t file_len, uint16_t junction, uint8_t *out, size_t out_len);

/* Reads the junction's current setting into the record. Answers 0 or a refusal: 22, 23, and 17 last. */
uint32_t v91_look_up(const uint8_t *file, size_t file_len, uint16_t junction, uint8_t *record, size_t record_len);

#ifdef __cplusplus
}
#endif

#endif
