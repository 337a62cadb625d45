/* The plain codec: see v91.h for what each function does. gcc or clang. */
#include "plain.h"

#include <string.h>

enum { RECORD_BYTES = 105, STATE_BYTES = 21, HEARD_BYTES = 8, PLAN_BYTES = 24 };
enum { HISTORY_BITS = 23, MOST_FRAMES = 1024, MOST_DOUBTFUL = 24, FRAME_PLACES = 64, SEQUENCE_PLACES = 16 };

/* Numbers in bytes, low byte first */

static uint64_t get_number(const uint8_t *from, int bytes)
{
    uint64_t value = 0;
    for (int i = 0; i < bytes; i++)
        value |= (uint64_t)from[i] << 8 * i;
    return value;
}

static void put_number(uint8_t *to, int bytes, uint64_t value)
{
    for (int i = 0; i < bytes; i++)
        to[i] = (uint8_t)(value >> 8 * i);
}

/* The record */

struct record {
    unsigned granted, drn, acknowledge;
    unsigned index[6];
    uint64_t half[12];
};

static void get_record(struct record *r, const uint8_t *from)
{
    r->granted = from[0] != 0;
    r->drn = from[1];
    r->acknowledge = from[2] != 0;
    for (int i = 0; i < 6; i++)
        r->index[i] = from[3 + i];
    for (int h = 0; h < 12; h++)
        r->half[h] = get_number(from + 9 + 8 * h, 8);
}

static void put_record(const struct record *r, uint8_t *to)
{
    to[0] = (uint8_t)r->granted;
    to[1] = (uint8_t)r->drn;
    to[2] = (uint8_t)r->acknowledge;
    for (int i = 0; i < 6; i++)
        to[3 + i] = (uint8_t)r->index[i];
    for (int h = 0; h < 12; h++)
        put_number(to + 9 + 8 * h, 8, r->half[h]);
}

static unsigned largest_index(const struct record *r)
{
    unsigned g = 0;
    for (int i = 0; i < 6; i++)
        if (r->index[i] > g)
            g = r->index[i];
    return g;
}

static uint64_t mask_size(const struct record *r, unsigned m)
{
    return (uint64_t)(__builtin_popcountll(r->half[2 * m]) + __builtin_popcountll(r->half[2 * m + 1]));
}

/* Refusals 4, 9, 10, 25, 11 and 12, in this order. With 25 goes the lowest empty interval. */
static uint32_t record_refusal(const struct record *r)
{
    unsigned g = largest_index(r);
    if (g > 5)
        return 4;
    if (r->drn > 28)
        return 9;
    if (r->granted && r->drn != 28)
        return 10;
    if (r->drn > 0) {
        uint64_t product = 1;
        for (uint32_t i = 0; i < 6; i++) {
            uint64_t size = mask_size(r, r->index[i]);
            if (size == 0)
                return 25 + (i << 24);
            product *= size;
        }
        if (product >> (r->drn + 14) == 0)
            return 11;
    }
    for (unsigned h = 2 * g + 2; h < 12; h++)
        if (r->half[h])
            return 12;
    return 0;
}

/* CP. A field of up to 16 bits lies within three bytes, and up to the CRC these are within the CP. */

static const unsigned index_at[6] = { 103, 107, 111, 115, 120, 124 };

static unsigned cp_length(unsigned g)
{
    return (289 + 136 * g + 5) / 6 * 6;
}

static unsigned cp_bytes(unsigned g)
{
    return (cp_length(g) + 7) / 8;
}

static unsigned get_field(const uint8_t *cp, unsigned at, unsigned width)
{
    return (unsigned)(get_number(cp + at / 8, 3) >> at % 8) & ((1u << width) - 1);
}

static void put_field(uint8_t *cp, unsigned at, unsigned value)
{
    put_number(cp + at / 8, 3, get_number(cp + at / 8, 3) | (uint64_t)value << at % 8);
}

/* The register after some more bits, the lowest first. */
static unsigned crc_after(unsigned reg, uint64_t bits, int count)
{
    for (int b = 0; b < count; b++) {
        unsigned differ = (reg ^ (unsigned)(bits >> b)) & 1;
        reg = reg >> 1 ^ (differ ? 0x8408 : 0);
    }
    return reg;
}

static unsigned crc(const uint8_t *cp, unsigned g)
{
    unsigned reg = 0xFFFF;
    for (unsigned at = 18; at < 272 + 136 * g; at += 17)
        reg = crc_after(reg, get_field(cp, at, 16), 16);
    return reg;
}

/* Takes a CP apart into the fields of a record. Refusals 1 to 10, 25 and 11, in this order. */
static uint32_t get_cp(struct record *r, const uint8_t *cp, size_t cp_len, size_t bit_count)
{
    if (bit_count / 8 + (bit_count % 8 != 0) > cp_len)
        return 1;
    if (bit_count < 294)
        return 2;
    if (get_field(cp, 0, 16) != 0xFFFF || !get_field(cp, 16, 1))
        return 3;
    for (int i = 0; i < 6; i++)
        r->index[i] = get_field(cp, index_at[i], 4);
    unsigned g = largest_index(r);
    if (g > 5)
        return 4;
    if (bit_count != cp_length(g))
        return 5;
    for (unsigned at = 17; at <= 272 + 136 * g; at += 17)
        if (get_field(cp, at, 1))
            return 6;
    if (crc(cp, g) != get_field(cp, 273 + 136 * g, 16))
        return 7;
    if (!get_field(cp, 19, 1) || get_field(cp, 30, 3) || get_field(cp, 128, 1))
        return 8;
    r->granted = get_field(cp, 18, 1);
    r->drn = get_field(cp, 20, 5);
    r->acknowledge = get_field(cp, 33, 1);
    memset(r->half, 0, sizeof r->half);
    for (unsigned m = 0; m <= g; m++)
        for (unsigned c = 0; c < 8; c++)
            r->half[2 * m + c / 4] |= (uint64_t)get_field(cp, 137 + 136 * m + 17 * c, 16) << 16 * (c % 4);
    return record_refusal(r);
}

uint32_t plain_read_cp(const uint8_t *cp, size_t cp_len, size_t bit_count,
                       uint8_t *record, size_t record_len)
{
    struct record r;
    uint32_t refusal = get_cp(&r, cp, cp_len, bit_count);
    if (refusal)
        return refusal;
    if (record_len < RECORD_BYTES)
        return 17;
    put_record(&r, record);
    return 0;
}

/* Writes the CP of a record that is not refused, of masks 0 to g. */
static void put_cp(const struct record *r, unsigned g, uint8_t *cp)
{
    memset(cp, 0, cp_bytes(g));
    put_field(cp, 0, 0xFFFF);
    put_field(cp, 16, 1);
    put_field(cp, 18, r->granted | 1u << 1 | r->drn << 2);
    put_field(cp, 33, r->acknowledge);
    for (int i = 0; i < 6; i++)
        put_field(cp, index_at[i], r->index[i]);
    for (unsigned m = 0; m <= g; m++)
        for (unsigned c = 0; c < 8; c++)
            put_field(cp, 137 + 136 * m + 17 * c, r->half[2 * m + c / 4] >> 16 * (c % 4) & 0xFFFF);
    put_field(cp, 273 + 136 * g, crc(cp, g));
}

uint32_t plain_write_cp(const uint8_t *record, size_t record_len, uint8_t *cp, size_t cp_len)
{
    struct record r;

    if (record_len < RECORD_BYTES)
        return 16;
    get_record(&r, record);
    uint32_t refusal = record_refusal(&r);
    if (refusal)
        return refusal;
    unsigned g = largest_index(&r);
    if (cp_len < cp_bytes(g))
        return 17;
    put_cp(&r, g, cp);
    return cp_length(g);
}

/* Line state. `past` is the history in the order of time: bit 0 is the oldest, bit 22 the latest. */

static uint64_t reversed(uint64_t history)
{
    uint64_t past = 0;
    for (int b = 0; b < HISTORY_BITS; b++)
        past |= (history >> b & 1) << (HISTORY_BITS - 1 - b);
    return past;
}

/* A state. The bits of the sequence, the lowest first, are 64 and 32. */
struct line {
    uint64_t past;
    unsigned sign, doubtful, frame_place, sequence_place, lost;
    uint64_t low, high;
};

static void get_state(struct line *l, const uint8_t *state)
{
    l->past = reversed(get_number(state, 4));
    l->sign = state[4] != 0;
    l->doubtful = state[5];
    l->frame_place = state[6];
    l->sequence_place = state[7];
    l->low = get_number(state + 8, 8);
    l->high = get_number(state + 16, 4);
    l->lost = state[20] != 0;
}

static void put_state(const struct line *l, uint8_t *state)
{
    put_number(state, 4, reversed(l->past));
    state[4] = (uint8_t)l->sign;
    state[5] = (uint8_t)l->doubtful;
    state[6] = (uint8_t)l->frame_place;
    state[7] = (uint8_t)l->sequence_place;
    put_number(state + 8, 8, l->low);
    put_number(state + 16, 4, l->high);
    state[20] = (uint8_t)l->lost;
}

/* Refusals 4, 9, 10, 25, 11 to 14, 18, 19 and 15, in this order, and 16 before them for a short record or state. */
static uint32_t call_refusal(struct record *r, const uint8_t *record, size_t record_len,
                             size_t frames, const uint8_t *state, size_t state_len)
{
    if (record_len < RECORD_BYTES || state_len < STATE_BYTES)
        return 16;
    get_record(r, record);
    uint32_t refusal = record_refusal(r);
    if (refusal)
        return refusal;
    if (frames > 0 && r->drn == 0)
        return 13;
    if (get_number(state, 4) >> HISTORY_BITS)
        return 14;
    if (state[5] > MOST_DOUBTFUL)
        return 18;
    if (state[6] >= FRAME_PLACES || state[7] >= SEQUENCE_PLACES)
        return 19;
    if (frames > MOST_FRAMES)
        return 15;
    return 0;
}

/* The bytes of data of some frames from a frame place on: with the channel on the frames at place 0 have six bits fewer. */
static size_t data_bytes(size_t frames, unsigned k, bool control, unsigned place)
{
    size_t of_channel = control ? (frames + (place + FRAME_PLACES - 1) % FRAME_PLACES) / FRAME_PLACES : 0;
    return (frames * (k + 6) - 6 * of_channel + 7) / 8;
}

/* The control channel. Bits 16 to 77 of a sequence, which its CRC covers, lie in two words. */

static const uint64_t pattern = 0x5FEE, data_bits = ((uint64_t)1 << 54) - 1;

static void start_sequence(struct line *l, uint64_t number)
{
    uint64_t covered = (number & 3) | (number >> 2 & data_bits) << 8;
    l->low = pattern | covered << 16;
    l->high = covered >> 48 | (uint64_t)crc_after(0xFFFF, covered, 62) << 14;
    l->lost = 0;
}

static void tell_sequence(const struct line *l, uint8_t *heard)
{
    uint64_t covered = l->low >> 16 | (l->high & 0x3FFF) << 48;
    uint64_t number = (covered & 3) | covered >> 8 << 2;
    if (l->lost)
        heard[0] = 2;
    else if ((l->low & 0xFFFF) != pattern)
        heard[0] = 3;
    else if ((l->high >> 14 & 0xFFFF) != crc_after(0xFFFF, covered, 62))
        heard[0] = 4;
    else {
        heard[0] = 1;
        put_number(heard + 1, 7, number);
    }
}

/* The six control bits to be sent at the sequence place; with the first of them a sequence starts. */
static unsigned six_to_send(struct line *l, uint64_t number)
{
    if (l->sequence_place == 0)
        start_sequence(l, number);
    unsigned at = 6 * l->sequence_place;
    l->sequence_place = (l->sequence_place + 1) % SEQUENCE_PLACES;
    if (at >= 64)
        return (unsigned)(l->high >> (at - 64)) & 63;
    return (unsigned)(l->low >> at | (at > 58 ? l->high << (64 - at) : 0)) & 63;
}

/* Takes six control bits at the sequence place, zeros after them; `lost` where the frame is marked. */
static void six_received(struct line *l, unsigned six, bool lost, uint8_t *heard)
{
    unsigned at = 6 * l->sequence_place;
    l->lost = lost || (at > 0 && l->lost);
    if (at >= 64) {
        l->high = (l->high & (((uint64_t)1 << (at - 64)) - 1)) | (uint64_t)six << (at - 64);
    } else {
        l->low = (l->low & (((uint64_t)1 << at) - 1)) | (uint64_t)six << at;
        l->high = at > 58 ? six >> (64 - at) : 0;
    }
    l->sequence_place = (l->sequence_place + 1) % SEQUENCE_PLACES;
    if (l->sequence_place == 0)
        tell_sequence(l, heard);
}

/* 18 bits at a time: none of them depends on another of them. */
static uint64_t scramble(uint64_t *past, uint64_t data, unsigned width)
{
    uint64_t line = 0;
    for (unsigned at = 0; at < width; at += 18) {
        unsigned n = width - at < 18 ? width - at : 18;
        uint64_t bits = (data >> at ^ *past ^ *past >> 5) & ((1u << n) - 1);
        line |= bits << at;
        *past = (*past | bits << HISTORY_BITS) >> n;
    }
    return line;
}

static uint64_t descramble(uint64_t *past, uint64_t line, unsigned width)
{
    uint64_t all = *past | line << HISTORY_BITS;
    uint64_t data = (line ^ all ^ all >> 5) & (((uint64_t)1 << width) - 1);
    *past = width < HISTORY_BITS ? all >> width : line >> (width - HISTORY_BITS);
    return data;
}

/* The positive octets of mask m by label: the largest Ucode has label 0. */
static void octets_by_label(uint8_t *table, const struct record *r, unsigned m, uint8_t positive)
{
    for (unsigned h = 2; h-- > 0;)
        for (uint64_t rest = r->half[2 * m + h]; rest;) {
            unsigned bit = 63 - (unsigned)__builtin_clzll(rest);
            *table++ = (uint8_t)(positive ^ (64 * h + bit));
            rest ^= (uint64_t)1 << bit;
        }
}

/* The labels of mask m by the lower seven bits of the octet; 255 where the mask lacks the Ucode. */
static void labels_by_octet(uint8_t *table, const struct record *r, unsigned m, uint8_t positive)
{
    uint8_t label = 0;
    memset(table, 255, 128);
    for (unsigned h = 2; h-- > 0;)
        for (uint64_t rest = r->half[2 * m + h]; rest;) {
            unsigned bit = 63 - (unsigned)__builtin_clzll(rest);
            table[(positive ^ (64 * h + bit)) & 127] = label++;
            rest ^= (uint64_t)1 << bit;
        }
}

uint32_t plain_send(const uint8_t *record, size_t record_len, bool a_law, size_t frames, bool control, uint64_t sequence,
                    const uint8_t *bits, size_t bits_len, uint8_t *octets, size_t octets_len,
                    uint8_t *state, size_t state_len)
{
    struct record r;
    struct line l;
    uint8_t tables[6][128];
    const uint8_t *table[6];
    uint64_t size[6];

    uint32_t refusal = call_refusal(&r, record, record_len, frames, state, state_len);
    if (refusal)
        return refusal;
    unsigned k = r.drn + 14;
    if (bits_len < data_bytes(frames, k, control, state[6]))
        return 16;
    if (octets_len < 6 * frames)
        return 17;

    unsigned g = largest_index(&r);
    for (unsigned m = 0; m <= g; m++)
        octets_by_label(tables[m], &r, m, a_law ? 0xD5 : 0xFF);
    for (int i = 0; i < 6; i++) {
        table[i] = tables[r.index[i]];
        size[i] = mask_size(&r, r.index[i]);
    }

    get_state(&l, state);
    uint64_t past = l.past, held = 0;
    unsigned sign = l.sign, holds = 0;
    for (size_t n = 0; n < frames; n++) {
        bool of_channel = control && l.frame_place == 0;
        unsigned width = of_channel ? k : k + 6;
        for (; holds < width; holds += 8)
            held |= (uint64_t)*bits++ << holds;
        uint64_t line = scramble(&past, held, width);
        held >>= width;
        holds -= width;
        if (of_channel)
            line = line << 6 | six_to_send(&l, sequence);
        uint64_t number = line >> 6;
        for (int i = 0; i < 6; i++) {
            uint64_t label = number;
            if (i < 5) {
                label = number % size[i];
                number /= size[i];
            }
            sign ^= line >> i & 1;
            *octets++ = table[i][label] & (sign ? 0xFF : 0x7F);
        }
        if (control)
            l.frame_place = (l.frame_place + 1) % FRAME_PLACES;
    }
    l.past = past;
    l.sign = sign;
    if (frames > 0)
        put_state(&l, state);
    return 0;
}

uint32_t plain_receive(const uint8_t *record, size_t record_len, bool a_law, size_t frames, bool control,
                       const uint8_t *octets, size_t octets_len, uint8_t *bits, size_t bits_len,
                       uint8_t *marks, size_t marks_len, uint8_t *heard, size_t heard_len,
                       uint8_t *state, size_t state_len)
{
    struct record r;
    struct line l;
    uint8_t tables[6][128];
    const uint8_t *table[6];
    uint64_t size[6];

    uint32_t refusal = call_refusal(&r, record, record_len, frames, state, state_len);
    if (refusal)
        return refusal;
    unsigned k = r.drn + 14;
    if (octets_len < 6 * frames)
        return 16;
    if (bits_len < data_bytes(frames, k, control, state[6]) || marks_len < frames || heard_len < HEARD_BYTES)
        return 17;

    unsigned g = largest_index(&r);
    for (unsigned m = 0; m <= g; m++)
        labels_by_octet(tables[m], &r, m, a_law ? 0xD5 : 0xFF);
    for (int i = 0; i < 6; i++) {
        table[i] = tables[r.index[i]];
        size[i] = mask_size(&r, r.index[i]);
    }

    memset(heard, 0, HEARD_BYTES);
    get_state(&l, state);
    uint64_t past = l.past, held = 0;
    unsigned sign = l.sign, holds = 0, doubtful = l.doubtful;
    for (size_t n = 0; n < frames; n++) {
        bool of_channel = control && l.frame_place == 0;
        unsigned width = of_channel ? k : k + 6, signs = 0;
        uint64_t number = 0, data = 0;
        uint8_t mark = 0;
        for (int i = 5; i >= 0; i--) {
            uint8_t label = table[i][octets[i] & 127];
            if (label == 255)
                mark = (uint8_t)(i + 1);
            number = number * size[i] + label;
            signs = signs << 1 | octets[i] >> 7;
        }
        if (mark == 0 && number >> k)
            mark = 7;
        unsigned six = mark ? 0 : (signs ^ (signs << 1 | sign)) & 63;
        uint64_t line = mark ? 0 : of_channel ? number : six | number << 6;
        data = descramble(&past, line, width);
        if (mark) {
            data = 0;
            doubtful = MOST_DOUBTFUL;
        } else
            doubtful = doubtful > width ? doubtful - width : 0;
        if (of_channel)
            six_received(&l, six, mark != 0, heard);
        if (control)
            l.frame_place = (l.frame_place + 1) % FRAME_PLACES;
        sign = octets[5] >> 7;
        octets += 6;
        *marks++ = mark;
        held |= data << holds;
        for (holds += width; holds >= 8; holds -= 8) {
            *bits++ = (uint8_t)held;
            held >>= 8;
        }
    }
    if (holds)
        *bits = (uint8_t)held;
    l.past = past;
    l.sign = sign;
    l.doubtful = doubtful;
    if (frames > 0)
        put_state(&l, state);
    return 0;
}

static int linear_value(bool a_law, int ucode)
{
    int segment = ucode >> 4, step = ucode & 15, value;
    if (!a_law)
        value = ((8 * step + 132) << segment) - 132;
    else if (segment == 0)
        value = 16 * step + 8;
    else
        value = (16 * step + 264) << (segment - 1);
    return value;
}

uint32_t plain_linear(bool a_law, const uint8_t *octets, size_t octets_len,
                      int32_t *samples, size_t samples_len)
{
    if (samples_len < octets_len)
        return 17;
    for (size_t n = 0; n < octets_len; n++) {
        int value = linear_value(a_law, (octets[n] ^ (a_law ? 0xD5 : 0xFF)) & 127);
        samples[n] = octets[n] & 128 ? value : -value;
    }
    return 0;
}

/* The default DIL. The Uchord of a training symbol decides how long its segment is, and which Ucode stands
   where TP has a 0; both patterns begin anew, at their lowest bit, with each segment. */

enum { SP = 0x0FC0, SP_BITS = 12, TP = 0x0FFF, TP_BITS = 12, SEGMENTS = 125 };

static const struct { uint8_t h, ref; } uchords[8] = {
    { 1, 0 }, { 1, 0 }, { 1, 0 }, { 1, 0 }, { 1, 0 }, { 1, 0 }, { 1, 0 }, { 1, 0 },
};

static const uint8_t training[SEGMENTS] = {
    124, 0, 123, 1, 122, 2, 121, 3, 120, 4, 119, 5, 118, 6, 117, 7,
    116, 8, 115, 9, 114, 10, 113, 11, 112, 12, 111, 13, 110, 14, 109, 15,
    108, 16, 107, 17, 106, 18, 105, 19, 104, 20, 103, 21, 102, 22, 101, 23,
    100, 24, 99, 25, 98, 26, 97, 27, 96, 28, 95, 29, 94, 30, 93, 31,
    92, 32, 91, 33, 90, 34, 89, 35, 88, 36, 87, 37, 86, 38, 85, 39,
    84, 40, 83, 41, 82, 42, 81, 43, 80, 44, 79, 45, 78, 46, 77, 47,
    76, 48, 75, 49, 74, 50, 73, 51, 72, 52, 71, 53, 70, 54, 69, 55,
    68, 56, 67, 57, 66, 58, 65, 59, 64, 60, 63, 61, 62,
};

static unsigned segment_octets(unsigned n)
{
    return 6 * (uchords[training[n] >> 4].h + 1u);
}

uint32_t plain_send_dil(bool a_law, uint8_t *octets, size_t octets_len)
{
    uint8_t positive = a_law ? 0xD5 : 0xFF;
    uint32_t count = 0;

    for (unsigned n = 0; n < SEGMENTS; n++)
        count += segment_octets(n);
    if (octets_len < count)
        return 17;
    for (unsigned n = 0; n < SEGMENTS; n++) {
        uint8_t symbol = training[n], reference = uchords[symbol >> 4].ref;
        for (unsigned at = 0, end = segment_octets(n); at < end; at++) {
            uint8_t ucode = TP >> at % TP_BITS & 1 ? symbol : reference;
            *octets++ = (positive ^ ucode) & (SP >> at % SP_BITS & 1 ? 0xFF : 0x7F);
        }
    }
    return count;
}

/* CP and E_s: a scrambled bit for each octet, whose sign it turns or not. */

enum { CP_BYTES = 122, END_BITS = 12, FIND_OCTETS = 24, BIT_UCODE = 66 };

static const uint32_t histories = (uint32_t)1 << HISTORY_BITS;

uint32_t plain_send_cp(const uint8_t *record, size_t record_len, bool a_law, uint8_t *octets, size_t octets_len,
                       uint8_t *state, size_t state_len)
{
    struct record r;
    uint8_t cp[CP_BYTES], positive = (a_law ? 0xD5 : 0xFF) ^ BIT_UCODE;

    uint32_t refusal = call_refusal(&r, record, record_len, 0, state, state_len);
    if (refusal)
        return refusal;
    unsigned bits = cp_length(largest_index(&r)), count = bits + END_BITS;
    if (octets_len < count)
        return 17;
    plain_write_cp(record, record_len, cp, sizeof cp);
    uint32_t history = (uint32_t)get_number(state, 4);
    unsigned sign = state[4] != 0;
    for (unsigned n = 0; n < count; n++) {
        unsigned bit = n < bits ? cp[n / 8] >> n % 8 & 1 : 0;
        bit ^= (history >> 17 ^ history >> 22) & 1;
        history = (history << 1 | bit) % histories;
        sign ^= bit;
        octets[n] = positive & (sign ? 0xFF : 0x7F);
    }
    put_number(state, 4, history);
    state[4] = (uint8_t)sign;
    return count;
}

uint32_t plain_find_state(const uint8_t *octets, size_t octets_len, uint8_t *state, size_t state_len)
{
    uint32_t history = 0;

    if (state_len < STATE_BYTES || octets_len < FIND_OCTETS)
        return 16;
    octets += octets_len - FIND_OCTETS;
    for (int n = 1; n < FIND_OCTETS; n++)
        history = history << 1 | (octets[n] ^ octets[n - 1]) >> 7;
    put_number(state, 4, history);
    state[4] = octets[FIND_OCTETS - 1] >> 7;
    return 0;
}

/* A mask for a wanted rate: the lowest Ucode that keeps the spacing, again and again. No point of any other mask
   is lower than the one in its place, so no sum is less. */

static unsigned points_wanted(uint32_t k)
{
    uint64_t points = 1;
    while (points * points * points * points * points * points >> k == 0)
        points++;
    return (unsigned)points;
}

uint32_t plain_plan(uint32_t k, bool a_law, uint32_t spacing, uint64_t ceiling, uint8_t *plan, size_t plan_len)
{
    uint64_t half[2] = { 0, 0 }, sum = 0;

    if (k < 15 || k > 42 || spacing < 1 || spacing > 65535)
        return 26;
    unsigned left = points_wanted(k);
    uint32_t least = (spacing + 1) / 2; /* the least value that the next point may have */
    for (int u = 0; u < 128 && left > 0; u++) {
        uint32_t value = (uint32_t)linear_value(a_law, u);
        if (value >= least) {
            half[u / 64] |= (uint64_t)1 << u % 64;
            sum += (uint64_t)value * value;
            least = value + spacing;
            left--;
        }
    }
    if (left > 0)
        return 27;
    if (sum > ceiling)
        return 28;
    if (plan_len < PLAN_BYTES)
        return 17;
    put_number(plan, 8, half[0]);
    put_number(plan + 8, 8, half[1]);
    put_number(plan + 16, 8, sum);
    return 0;
}

/* The settings file. An entry is a head (junction number, kind, CP length), the CP, and the start of the entry before
   it; the first points to itself. What else is fixed, a version fixes. */

enum { CURRENT, PREVIOUS, HEAD_BYTES = 4 };

static const struct version {
    uint8_t number;
    int start_bytes, count_bytes;
    unsigned junctions;
} version_1 = { 1, 2, 1, 40 }, version_2 = { 2, 4, 2, 400 };

/* What a walk over a file finds: where its trailer begins and what is counted; and of one junction where its entries
   begin, or would, the start of the entry before that, and the bytes of its current and previous ones, 0 for none. */
struct walk {
    const struct version *version;
    size_t end, first, before, own[2];
    unsigned entries, junctions;
};

static size_t trailer_bytes(const struct version *v)
{
    return (size_t)(v->count_bytes + v->start_bytes + 1);
}

static size_t entry_bytes(const struct version *v, unsigned bytes_of_cp)
{
    return HEAD_BYTES + bytes_of_cp + (size_t)v->start_bytes;
}

/* The version that the last byte names; null where it names none, or the file is shorter than the trailer. */
static const struct version *version_of(const uint8_t *file, size_t file_len)
{
    uint8_t number = file_len > 0 ? file[file_len - 1] : 0;
    const struct version *v = number == version_1.number ? &version_1 : number == version_2.number ? &version_2 : NULL;
    return v && file_len >= trailer_bytes(v) ? v : NULL;
}

/* The length in bits of a CP of so many bytes; 0 where none has so many. */
static unsigned bits_in(unsigned bytes)
{
    unsigned g = 0;
    while (g < 5 && cp_bytes(g) < bytes)
        g++;
    return cp_bytes(g) == bytes ? cp_length(g) : 0;
}

/* Walks over a file from its beginning; false where it breaks the rules or a CP is refused. The junction number and
   the kind make one rank, which rises; that of a previous setting comes next to its current one's. */
static bool walk(struct walk *w, const uint8_t *file, size_t file_len, unsigned junction)
{
    const struct version *v = version_of(file, file_len);
    struct record r;
    size_t at = 0, last = 0, size;
    long latest = -1;

    *w = (struct walk){ .version = v };
    if (!v)
        return false;
    w->end = file_len - trailer_bytes(v);
    for (; at < w->end; last = at, at += size) {
        const uint8_t *entry = file + at;
        size = w->end - at < HEAD_BYTES ? SIZE_MAX : entry_bytes(v, entry[3]);
        if (w->end - at < size)
            return false;
        unsigned number = (unsigned)get_number(entry, 2), kind = entry[2];
        long rank = 2 * (long)number + kind;
        if (kind > PREVIOUS || (kind == CURRENT ? rank <= latest : rank != latest + 1))
            return false;
        latest = rank;
        w->entries++;
        w->junctions += kind == CURRENT;
        if (w->junctions > v->junctions || get_number(entry + size - v->start_bytes, v->start_bytes) != last)
            return false;
        if (get_cp(&r, entry + HEAD_BYTES, entry[3], bits_in(entry[3])) != 0)
            return false;
        if (number < junction) {
            w->first = at + size;
            w->before = at;
        } else if (number == junction)
            w->own[kind] = size;
    }
    return get_number(file + w->end, v->count_bytes) == w->entries
           && get_number(file + w->end + v->count_bytes, v->start_bytes) == last;
}

/* A file that is written, of its own version: the place of the next entry and the start of the last one. */
struct writer {
    const struct version *version;
    uint8_t *out;
    size_t at, last;
};

/* Ends an entry whose head and CP are there. */
static void end_entry(struct writer *to)
{
    const struct version *v = to->version;
    size_t size = entry_bytes(v, to->out[to->at + 3]);
    put_number(to->out + to->at + size - v->start_bytes, v->start_bytes, to->last);
    to->last = to->at;
    to->at += size;
}

static void copy_entry(struct writer *to, const uint8_t *entry, uint8_t kind)
{
    memcpy(to->out + to->at, entry, HEAD_BYTES + (size_t)entry[3]);
    to->out[to->at + 2] = kind;
    end_entry(to);
}

/* Copies the entries between two places of the file. */
static void copy_entries(struct writer *to, const struct walk *w, const uint8_t *file, size_t at, size_t end)
{
    for (; at < end; at += entry_bytes(w->version, file[at + 3]))
        copy_entry(to, file + at, file[at + 2]);
}

/* Begins with what stands below the junction; in the file's own version its bytes stay as they are. */
static struct writer copy_below(const struct version *v, const struct walk *w, const uint8_t *file, uint8_t *out)
{
    struct writer to = { v, out, 0, 0 };

    if (v == w->version) {
        memcpy(out, file, w->first);
        to.at = w->first;
        to.last = w->before;
    } else
        copy_entries(&to, w, file, 0, w->first);
    return to;
}

/* Goes on with what stands above the junction, and ends with the trailer; the file's length. */
static uint32_t copy_above(struct writer *to, const struct walk *w, const uint8_t *file, unsigned entries)
{
    const struct version *v = to->version;
    copy_entries(to, w, file, w->first + w->own[CURRENT] + w->own[PREVIOUS], w->end);
    uint8_t *trailer = to->out + to->at;
    put_number(trailer, v->count_bytes, entries);
    put_number(trailer + v->count_bytes, v->start_bytes, to->last);
    trailer[v->count_bytes + v->start_bytes] = v->number;
    return (uint32_t)(to->at + trailer_bytes(v));
}

uint32_t plain_put(const uint8_t *file, size_t file_len, uint16_t junction, const uint8_t *record, size_t record_len,
                   uint8_t *out, size_t out_len)
{
    struct record r;
    struct walk w;

    if (record_len < RECORD_BYTES)
        return 16;
    get_record(&r, record);
    uint32_t refusal = record_refusal(&r);
    if (refusal)
        return refusal;
    if (!walk(&w, file, file_len, junction))
        return 22;
    unsigned junctions = w.junctions + (w.own[CURRENT] == 0), g = largest_index(&r);
    if (junctions > version_2.junctions)
        return 24;
    const struct version *v = junctions > w.version->junctions ? &version_2 : w.version;
    size_t wider = (size_t)(v->start_bytes - w.version->start_bytes);
    if (out_len < w.end - w.own[PREVIOUS] + w.entries * wider + entry_bytes(v, cp_bytes(g)) + trailer_bytes(v))
        return 17;

    struct writer to = copy_below(v, &w, file, out);
    uint8_t *entry = out + to.at;
    put_number(entry, 2, junction);
    entry[2] = CURRENT;
    entry[3] = (uint8_t)cp_bytes(g);
    put_cp(&r, g, entry + HEAD_BYTES);
    end_entry(&to);
    if (w.own[CURRENT] > 0)
        copy_entry(&to, file + w.first, PREVIOUS);
    return copy_above(&to, &w, file, w.entries + 1 - (w.own[PREVIOUS] > 0));
}

uint32_t plain_go_back(const uint8_t *file, size_t file_len, uint16_t junction, uint8_t *out, size_t out_len)
{
    struct walk w;

    if (!walk(&w, file, file_len, junction))
        return 22;
    if (w.own[PREVIOUS] == 0)
        return 23;
    if (out_len < file_len)
        return 17;
    struct writer to = copy_below(w.version, &w, file, out);
    copy_entry(&to, file + w.first + w.own[CURRENT], CURRENT);
    copy_entry(&to, file + w.first, PREVIOUS);
    return copy_above(&to, &w, file, w.entries);
}

uint32_t plain_look_up(const uint8_t *file, size_t file_len, uint16_t junction, uint8_t *record, size_t record_len)
{
    struct walk w;

    if (!walk(&w, file, file_len, junction))
        return 22;
    if (w.own[CURRENT] == 0)
        return 23;
    const uint8_t *entry = file + w.first;
    return plain_read_cp(entry + HEAD_BYTES, entry[3], bits_in(entry[3]), record, record_len);
}
