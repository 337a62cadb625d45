/* How many frames, octets, CPs, states, plans or settings a second the proved codec and the plain one manage, and the
   ratio of the two.
   Both run in this one process on buffers written before. A round times one codec and then the other, the first
   of them in turn; the first rounds warm up and do not count. Each figure is the median of the rounds that do, and
   beside the ratio stand its quartiles. Seconds are those of the processor, so that other programs disturb little. */
#define _POSIX_C_SOURCE 199309L
#include "plain/plain.h"
#include "v91.h"

#include <stdio.h>
#include <stdlib.h>
#include <string.h>
#include <time.h>

enum { PLAIN, PROVED, CODECS, WARM_UP = 3, ROUNDS = 41, CP_BYTES = 122, OCTETS = 6 * V91_FRAMES };
enum { PLAN_K = 24, PLAN_SPACING = 600, SETTINGS_A_ROUND = 4000 };

static const struct codec {
    uint32_t (*send)(const uint8_t *, size_t, bool, size_t, bool, uint64_t, const uint8_t *, size_t,
                     uint8_t *, size_t, uint8_t *, size_t);
    uint32_t (*receive)(const uint8_t *, size_t, bool, size_t, bool, const uint8_t *, size_t,
                        uint8_t *, size_t, uint8_t *, size_t, uint8_t *, size_t, uint8_t *, size_t);
    uint32_t (*linear)(bool, const uint8_t *, size_t, int32_t *, size_t);
    uint32_t (*read_cp)(const uint8_t *, size_t, size_t, uint8_t *, size_t);
    uint32_t (*write_cp)(const uint8_t *, size_t, uint8_t *, size_t);
    uint32_t (*send_dil)(bool, uint8_t *, size_t);
    uint32_t (*send_cp)(const uint8_t *, size_t, bool, uint8_t *, size_t, uint8_t *, size_t);
    uint32_t (*find_state)(const uint8_t *, size_t, uint8_t *, size_t);
    uint32_t (*plan)(uint32_t, bool, uint32_t, uint64_t, uint8_t *, size_t);
    uint32_t (*put)(const uint8_t *, size_t, uint16_t, const uint8_t *, size_t, uint8_t *, size_t);
    uint32_t (*go_back)(const uint8_t *, size_t, uint16_t, uint8_t *, size_t);
    uint32_t (*look_up)(const uint8_t *, size_t, uint16_t, uint8_t *, size_t);
} codecs[CODECS] = {
    { plain_send, plain_receive, plain_linear, plain_read_cp, plain_write_cp, plain_send_dil, plain_send_cp, plain_find_state,
      plain_plan, plain_put, plain_go_back, plain_look_up },
    { v91_send, v91_receive, v91_linear, v91_read_cp, v91_write_cp, v91_send_dil, v91_send_cp, v91_find_state,
      v91_plan, v91_put, v91_go_back, v91_look_up },
};

/* What the calls read, and what each codec writes. */
static uint8_t record[V91_RECORD_BYTES], bits[OCTETS], line[OCTETS], cp[CP_BYTES], file[V91_FILE_BYTES];
static size_t count, bits_len, cp_bits, file_len, junctions;
static bool control;
static struct written {
    uint8_t octets[OCTETS], bits[OCTETS], marks[V91_FRAMES], heard[V91_HEARD_BYTES], state[V91_STATE_BYTES];
    uint8_t record[V91_RECORD_BYTES], cp[CP_BYTES], plan[V91_PLAN_BYTES], file[V91_FILE_BYTES];
    int32_t samples[OCTETS];
} written[CODECS];

static uint32_t send_call(const struct codec *codec, struct written *to)
{
    return codec->send(record, sizeof record, false, count, control, V91_RETRAIN, bits, bits_len,
                       to->octets, 6 * count, to->state, sizeof to->state);
}

static uint32_t receive_call(const struct codec *codec, struct written *to)
{
    return codec->receive(record, sizeof record, false, count, control, line, 6 * count, to->bits, bits_len,
                          to->marks, count, to->heard, sizeof to->heard, to->state, sizeof to->state);
}

static uint32_t linear_call(const struct codec *codec, struct written *to)
{
    return codec->linear(false, line, count, to->samples, count);
}

static uint32_t read_call(const struct codec *codec, struct written *to)
{
    return codec->read_cp(cp, sizeof cp, cp_bits, to->record, sizeof to->record);
}

static uint32_t write_call(const struct codec *codec, struct written *to)
{
    return codec->write_cp(record, sizeof record, to->cp, sizeof to->cp) - (uint32_t)cp_bits;
}

static uint32_t dil_call(const struct codec *codec, struct written *to)
{
    return codec->send_dil(false, to->octets, V91_DIL_OCTETS) - V91_DIL_OCTETS;
}

static uint32_t send_cp_call(const struct codec *codec, struct written *to)
{
    return codec->send_cp(record, sizeof record, false, to->octets, sizeof to->octets, to->state, sizeof to->state)
           - (uint32_t)V91_CP_OCTETS(cp_bits);
}

static uint32_t find_state_call(const struct codec *codec, struct written *to)
{
    return codec->find_state(line, V91_FIND_OCTETS, to->state, sizeof to->state);
}

static uint32_t plan_call(const struct codec *codec, struct written *to)
{
    return codec->plan(PLAN_K, false, PLAN_SPACING, UINT64_MAX, to->plan, sizeof to->plan);
}

/* A junction of the file, and the one in the middle of it. */
static uint16_t junction(size_t n)
{
    return (uint16_t)(300 + 7 * n);
}

static uint16_t middle(void)
{
    return junction(junctions / 2);
}

static uint32_t put_call(const struct codec *codec, struct written *to)
{
    return codec->put(file, file_len, middle(), record, sizeof record, to->file, sizeof to->file) - (uint32_t)file_len;
}

static uint32_t go_back_call(const struct codec *codec, struct written *to)
{
    return codec->go_back(file, file_len, middle(), to->file, sizeof to->file) - (uint32_t)file_len;
}

static uint32_t look_up_call(const struct codec *codec, struct written *to)
{
    return codec->look_up(file, file_len, middle(), to->record, sizeof to->record);
}

static double now(void)
{
    struct timespec t;
    clock_gettime(CLOCK_PROCESS_CPUTIME_ID, &t);
    return (double)t.tv_sec + 1e-9 * (double)t.tv_nsec;
}

static int ascending(const void *one, const void *other)
{
    double a = *(const double *)one, b = *(const double *)other;
    return (a > b) - (a < b);
}

/* Times `calls` calls of each codec, round after round; `each` is how many things a call does. */
static void measure(const char *entry, unsigned size, size_t each,
                    uint32_t (*call)(const struct codec *, struct written *), size_t calls)
{
    double rate[CODECS][ROUNDS], ratio[ROUNDS];

    memset(written, 0, sizeof written);
    for (int round = -WARM_UP; round < ROUNDS; round++) {
        int at = round < 0 ? 0 : round;
        for (int turn = 0; turn < CODECS; turn++) {
            int c = (round + WARM_UP + turn) % CODECS;
            double begun = now();
            for (size_t n = 0; n < calls; n++)
                if (call(&codecs[c], &written[c]) != 0) {
                    fprintf(stderr, "bench: %s was refused\n", entry);
                    exit(1);
                }
            rate[c][at] = (double)(calls * each) / (now() - begun);
        }
        ratio[at] = rate[PROVED][at] / rate[PLAIN][at];
    }
    if (memcmp(&written[PLAIN], &written[PROVED], sizeof written[PLAIN]) != 0) {
        fprintf(stderr, "bench: the two codecs differ in %s\n", entry);
        exit(1);
    }
    for (int c = 0; c < CODECS; c++)
        qsort(rate[c], ROUNDS, sizeof rate[c][0], ascending);
    qsort(ratio, ROUNDS, sizeof ratio[0], ascending);
    printf("%-8s %4u %6zu %10.2f %10.2f %7.2f  %.2f to %.2f\n", entry, size, each, 1e-6 * rate[PLAIN][ROUNDS / 2],
           1e-6 * rate[PROVED][ROUNDS / 2], ratio[ROUNDS / 2], ratio[ROUNDS / 4], ratio[ROUNDS - 1 - ROUNDS / 4]);
}

/* Six masks of the least size that K allows, their Ucodes spread out and unlike each other. */
static void make_record(unsigned k)
{
    unsigned size = 1;
    while ((uint64_t)size * size * size * size * size * size >> k == 0)
        size++;
    memset(record, 0, sizeof record);
    record[1] = (uint8_t)(k - 14);
    for (unsigned m = 0; m < 6; m++) {
        record[3 + m] = (uint8_t)m;
        for (unsigned j = 0; j < size; j++) {
            unsigned ucode = (j * 128 / size + m) % 128;
            record[9 + 16 * m + ucode / 8] |= (uint8_t)(1u << ucode % 8);
        }
    }
}

/* A record of g + 1 masks. */
static void make_masks(unsigned g)
{
    make_record(24);
    for (unsigned i = 0; i < 6; i++)
        record[3 + i] = (uint8_t)(i < g ? i : g);
    memset(record + 9 + 16 * (g + 1), 0, 16 * (5 - g));
    cp_bits = plain_write_cp(record, sizeof record, cp, sizeof cp);
}

/* A settings file of so many junctions: the record, with either acknowledge bit, as both settings of each. */
static void make_file(size_t wanted)
{
    static const uint8_t empty[] = V91_EMPTY_FILE;
    static uint8_t made[V91_FILE_BYTES];

    memcpy(file, empty, sizeof empty);
    file_len = sizeof empty;
    junctions = wanted;
    for (size_t n = 0; n < 2 * junctions; n++) {
        record[V91_RECORD_ACKNOWLEDGE] = (uint8_t)(n % 2);
        file_len = plain_put(file, file_len, junction(n / 2), record, sizeof record, made, sizeof made);
        memcpy(file, made, file_len);
    }
}

/* A record at K, and 1,024 frames that the plain codec sends under it. */
static void make_line(unsigned k)
{
    make_record(k);
    count = V91_FRAMES;
    bits_len = sizeof bits;
    memset(written, 0, sizeof written);
    send_call(&codecs[PLAIN], &written[PLAIN]);
    memcpy(line, written[PLAIN].octets, sizeof line);
}

static void frames(const char *entry, uint32_t (*call)(const struct codec *, struct written *))
{
    static const unsigned ks[] = { 15, 24, 33, 42 };
    static const size_t counts[] = { 1, 32, 1024 };

    for (int i = 0; i < 4; i++) {
        make_line(ks[i]);
        for (int n = 0; n < 3; n++) {
            count = counts[n];
            bits_len = V91_DATA_BYTES(count, ks[i] - 14);
            measure(entry, ks[i], count, call, ((size_t)1 << 16) / (count + 31));
        }
    }
}

/* The same at one K with the control channel on: a whole sequence in each call. */
static void frames_on(const char *entry, uint32_t (*call)(const struct codec *, struct written *))
{
    enum { K = 24 };

    control = true;
    make_line(K);
    bits_len = V91_DATA_BYTES_ON(V91_FRAMES, K - 14, 0);
    measure(entry, K, V91_FRAMES, call, ((size_t)1 << 16) / (V91_FRAMES + 31));
    control = false;
}

/* A full settings file, of version 1 with 40 junctions and of version 2 with 400, of one mask and of six. */
static void settings(void)
{
    static const size_t most[] = { V91_JUNCTIONS_1, V91_JUNCTIONS };

    for (int v = 0; v < 2; v++)
        for (unsigned g = 0; g < 6; g += 5) {
            size_t each = 2 * most[v], calls = SETTINGS_A_ROUND / each;
            make_masks(g);
            make_file(most[v]);
            measure("put", g, each, put_call, calls);
            measure("go_back", g, each, go_back_call, calls);
            measure("look_up", g, each, look_up_call, calls);
        }
}

int main(void)
{
    static const size_t counts[] = { 6, 192, 6144 };

    for (size_t i = 0; i < sizeof bits; i++)
        bits[i] = (uint8_t)(i * 2654435761u >> 13);
    printf("entry    K, g  count    plain/s   proved/s   ratio  quartiles"
           "   (millions; frames, octets, CPs, states, plans or settings in the file)\n");
    frames("send", send_call);
    frames("receive", receive_call);
    frames_on("send, on", send_call);
    frames_on("recv, on", receive_call);
    for (int n = 0; n < 3; n++) {
        count = counts[n];
        measure("linear", 0, count, linear_call, ((size_t)1 << 19) / (count + 31));
    }
    for (unsigned g = 0; g < 6; g += 5) {
        make_masks(g);
        measure("read_cp", g, 1, read_call, 1000);
        measure("write_cp", g, 1, write_call, 1000);
        measure("send_cp", g, V91_CP_OCTETS(cp_bits), send_cp_call, 1000);
    }
    measure("find", 0, 1, find_state_call, 1000);
    measure("send_dil", 0, V91_DIL_OCTETS, dil_call, 1000);
    measure("plan", PLAN_K, 1, plan_call, 1000);
    settings();
    return 0;
}
