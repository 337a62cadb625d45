/* The stack that each function of the archive uses: it is called on a stack of its own that was painted before, and what is no longer as
   painted was used. A call of nothing is made in the same way, and what that uses is taken off. */
#include "v91.h"

#include <stdio.h>
#include <stdlib.h>
#include <string.h>
#include <ucontext.h>

enum { STACK = 1 << 16, PAINT = 0xa5, MIDDLE = V91_JUNCTIONS / 2 };

static uint8_t record[V91_RECORD_BYTES], cp[V91_CP_BYTES], state[V91_STATE_BYTES], marks[V91_FRAMES], heard[V91_HEARD_BYTES];
static uint8_t bits[V91_FRAMES_DATA_BYTES], octets[V91_FRAMES_OCTETS], mask_and_sum[V91_PLAN_BYTES];
static uint8_t file[V91_FILE_BYTES], out[V91_FILE_BYTES];
static int32_t samples[V91_FRAMES_OCTETS];
static uint32_t answer;

static void nothing(void) { answer = 0; }
static void write_cp(void) { answer = v91_write_cp(record, sizeof record, cp, sizeof cp); }
static void read_cp(void) { answer = v91_read_cp(cp, sizeof cp, V91_CP_BITS, record, sizeof record); }
static void send(void)
{
    answer = v91_send(record, sizeof record, false, V91_FRAMES, true, V91_RETRAIN, bits, sizeof bits, octets, sizeof octets,
                      state, sizeof state);
}
static void receive(void)
{
    answer = v91_receive(record, sizeof record, false, V91_FRAMES, true, octets, sizeof octets, bits, sizeof bits,
                         marks, sizeof marks, heard, sizeof heard, state, sizeof state);
}
static void linear(void) { answer = v91_linear(true, octets, sizeof octets, samples, V91_FRAMES_OCTETS); }
static void send_dil(void) { answer = v91_send_dil(true, octets, sizeof octets); }
static void send_cp(void) { answer = v91_send_cp(record, sizeof record, true, octets, sizeof octets, state, sizeof state); }
static void find_state(void) { answer = v91_find_state(octets, V91_START_OCTETS, state, sizeof state); }
static void plan(void) { answer = v91_plan(42, true, 16, UINT64_MAX, mask_and_sum, sizeof mask_and_sum); }
static void put(void) { answer = v91_put(file, sizeof file, MIDDLE, record, sizeof record, out, sizeof out); }
static void go_back(void) { answer = v91_go_back(file, sizeof file, MIDDLE, out, sizeof out); }
static void look_up(void) { answer = v91_look_up(file, sizeof file, MIDDLE, record, sizeof record); }

/* A full file: the record as both settings of each of the most junctions. */
static void fill_file(void)
{
    static const uint8_t empty[] = V91_EMPTY_FILE;
    size_t length = sizeof empty;

    memcpy(file, empty, sizeof empty);
    for (unsigned n = 0; n < 2 * V91_JUNCTIONS; n++) {
        answer = v91_put(file, length, (uint16_t)(n / 2), record, sizeof record, out, sizeof out);
        if (V91_REFUSED(answer)) {
            fprintf(stderr, "footprint: the file is refused with %u\n", V91_NUMBER(answer));
            exit(1);
        }
        length = answer;
        memcpy(file, out, length);
    }
}

static size_t used_by(void (*call)(void))
{
    static uint8_t stack[STACK] __attribute__((aligned(64)));
    static ucontext_t here, there;
    size_t untouched = 0;

    memset(stack, PAINT, sizeof stack);
    getcontext(&there);
    there.uc_stack.ss_sp = stack;
    there.uc_stack.ss_size = sizeof stack;
    there.uc_link = &here;
    makecontext(&there, call, 0);
    swapcontext(&here, &there);
    while (untouched < STACK && stack[untouched] == PAINT)
        untouched++;
    return STACK - untouched;
}

static void show(const char *name, void (*call)(void), uint32_t wanted)
{
    size_t used = used_by(call), own = used_by(nothing);

    used = used_by(call); /* once more, so that nothing that is done once is counted */
    if (answer != wanted) {
        fprintf(stderr, "footprint: %s answers %u\n", name, answer);
        exit(1);
    }
    printf("stack of %s: %zu bytes\n", name, used - own);
}

int main(void)
{
    /* six full masks, one for each interval, at the highest rate */
    memset(record + V91_RECORD_UCODE(0, 0), 0xff, sizeof record - V91_RECORD_UCODE(0, 0));
    record[V91_RECORD_DRN] = 28;
    for (int i = 0; i < 6; i++)
        record[V91_RECORD_INDEX(i)] = (uint8_t)i;
    for (size_t i = 0; i < sizeof bits; i++)
        bits[i] = (uint8_t)(i * 37);
    show("v91_write_cp", write_cp, V91_CP_BITS);
    show("v91_read_cp", read_cp, 0);
    show("v91_send", send, 0);
    show("v91_receive", receive, 0);
    show("v91_linear", linear, 0);
    show("v91_send_dil", send_dil, V91_DIL_OCTETS);
    show("v91_send_cp", send_cp, V91_START_OCTETS);
    show("v91_find_state", find_state, 0);
    show("v91_plan", plan, 0);
    fill_file();
    show("v91_put", put, V91_FILE_BYTES);
    show("v91_go_back", go_back, V91_FILE_BYTES);
    show("v91_look_up", look_up, 0);
    return 0;
}
