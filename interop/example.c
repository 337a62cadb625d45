/* Reads a CP, sends 63 one bits in three frames, receives them, and prints what came of it; another receiver begins cold.
   Then a request to retrain goes through the control channel, a circuit begins with its CP and E_s, and two settings of
   a junction go into a settings file, and 40 more junctions. Exits with 1 if anything is not as expected. */
#include "v91.h"

#include <stdio.h>
#include <stdlib.h>
#include <string.h>

enum { FRAMES = 3, CP_BITS = 294, JUNCTION = 300 };

/* One mask with Ucodes 0 to 5 for all intervals, drn 1: a frame carries 21 bits. */
static const uint8_t cp[37] = {
    0xff, 0xff, 0x19, 0, 0, 0, 0, 0, 0, 0, 0, 0, 0, 0, 0, 0, 0, 0x7e, 0, 0,
    0, 0, 0, 0, 0, 0, 0, 0, 0, 0, 0, 0, 0, 0, 0xe0, 0xd0, 0,
};

static const uint8_t expected_octets[6 * FRAMES] = {
    0xfd, 0x7e, 0xff, 0x7a, 0xfd, 0x7a, 0x7b, 0x7b, 0xfc,
    0x7c, 0xfa, 0x7a, 0x7d, 0x7a, 0x7d, 0x7e, 0xff, 0x7d,
};

static void expect(bool holds, const char *what)
{
    if (!holds) {
        fprintf(stderr, "example: %s\n", what);
        exit(1);
    }
}

static void print_hex(const char *name, const uint8_t *bytes, size_t count)
{
    printf("%s", name);
    for (size_t i = 0; i < count; i++)
        printf(" %02x", bytes[i]);
    printf("\n");
}

/* A call with the control channel on from a fresh state of both ends: its 1,024 frames have a whole sequence. */
static void control_channel(const uint8_t *record)
{
    static uint8_t bits[V91_DATA_BYTES_ON(V91_FRAMES, 1, 0)], octets[V91_FRAMES_OCTETS], received[sizeof bits], marks[V91_FRAMES];
    uint8_t sender[V91_STATE_BYTES] = { 0 }, receiver[V91_STATE_BYTES] = { 0 }, heard[V91_HEARD_BYTES];
    uint64_t wanted = V91_RETRAIN | V91_SECONDARY(5), said = 0;

    for (size_t i = 0; i < sizeof bits; i++)
        bits[i] = (uint8_t)(i * 7);
    expect(v91_send(record, V91_RECORD_BYTES, false, V91_FRAMES, true, wanted, bits, sizeof bits,
                    octets, sizeof octets, sender, sizeof sender) == 0, "the sender refuses with the channel on");
    expect(v91_receive(record, V91_RECORD_BYTES, false, V91_FRAMES, true, octets, sizeof octets, received, sizeof received,
                       marks, sizeof marks, heard, sizeof heard, receiver, sizeof receiver) == 0, "the receiver refuses with the channel on");
    for (int i = 7; i > 0; i--)
        said = said << 8 | heard[i];
    printf("heard  %d, cleardown %d, retrain %d, data %llu\n", heard[0], (said & V91_CLEARDOWN) != 0, (said & V91_RETRAIN) != 0,
           (unsigned long long)(said >> 2));
    expect(heard[0] == V91_HEARD_SEQUENCE && said == wanted, "another sequence than the one sent");
    expect(memcmp(received, bits, sizeof bits) == 0, "other bits than those sent with the channel on");
    expect(memcmp(sender, receiver, sizeof sender) == 0, "the two ends are in different states with the channel on");
    receiver[V91_STATE_FRAME_PLACE] = 64;
    expect(v91_receive(record, V91_RECORD_BYTES, false, 0, false, NULL, 0, NULL, 0, NULL, 0, heard, sizeof heard,
                       receiver, sizeof receiver) == V91_PLACE_TOO_LARGE, "a frame place above 63 is taken");
}

/* From CP through E_s into data: the sender goes on from the state that they left, the receiver from the one that it finds. */
static void start_from_cp(const uint8_t *record)
{
    uint8_t line[V91_START_OCTETS], bits[8] = { 0xff, 0xff, 0xff, 0xff, 0xff, 0xff, 0xff, 0x7f }, octets[6 * FRAMES], received[8];
    uint8_t sender[V91_STATE_BYTES] = { 0 }, receiver[V91_STATE_BYTES] = { 0 }, marks[FRAMES], heard[V91_HEARD_BYTES];
    uint32_t count = v91_send_cp(record, V91_RECORD_BYTES, false, line, sizeof line, sender, sizeof sender);

    expect(!V91_REFUSED(count) && count == V91_CP_OCTETS(CP_BITS), "another octet count than that of CP and E_s");
    expect(v91_find_state(line, count, receiver, sizeof receiver) == 0, "no state is found");
    print_hex("E_s   ", line + count - 12, 12);
    print_hex("found ", receiver, V91_STATE_DOUBTFUL);
    expect(memcmp(sender, receiver, sizeof sender) == 0, "another state is found than the one left");
    expect(v91_send(record, V91_RECORD_BYTES, false, FRAMES, false, 0, bits, sizeof bits,
                    octets, sizeof octets, sender, sizeof sender) == 0, "the sender refuses after CP");
    expect(v91_receive(record, V91_RECORD_BYTES, false, FRAMES, false, octets, sizeof octets, received, sizeof received,
                       marks, sizeof marks, heard, sizeof heard, receiver, sizeof receiver) == 0, "the receiver refuses after CP");
    expect(memcmp(received, bits, sizeof bits) == 0, "other bits than those sent after CP");
    expect(v91_find_state(line, V91_FIND_OCTETS - 1, receiver, sizeof receiver) == V91_INPUT_TOO_SHORT, "23 octets are taken");
}

/* Two settings of a junction, put one after the other into an empty file; then back to the first of them. The last of 40
   junctions more turns the file into version 2. */
static void settings_file(const uint8_t *record)
{
    static const uint8_t empty[] = V91_EMPTY_FILE;
    static uint8_t one[V91_FILE_BYTES], two[V91_FILE_BYTES];
    uint8_t other[V91_RECORD_BYTES], current[V91_RECORD_BYTES];
    size_t entry = V91_ENTRY_BYTES(CP_BITS);

    memcpy(other, record, sizeof other);
    other[V91_RECORD_ACKNOWLEDGE] = 1;
    uint32_t length = v91_put(empty, sizeof empty, JUNCTION, record, V91_RECORD_BYTES, one, sizeof one);
    expect(!V91_REFUSED(length) && length == entry + V91_TRAILER_BYTES, "the first setting is refused");
    expect(v91_go_back(one, length, JUNCTION, two, sizeof two) == V91_SETTING_MISSING, "one setting is exchanged");
    length = v91_put(one, length, JUNCTION, other, sizeof other, two, sizeof two);
    expect(!V91_REFUSED(length) && length == 2 * entry + V91_TRAILER_BYTES, "the second setting is refused");
    expect(v91_look_up(two, length, JUNCTION, current, sizeof current) == 0, "the junction is not there");
    expect(memcmp(current, other, sizeof current) == 0, "another setting than the one put last");
    expect(v91_go_back(two, length, JUNCTION, one, sizeof one) == length, "there is no going back");
    expect(v91_look_up(one, length, JUNCTION, current, sizeof current) == 0, "the junction is gone");
    expect(memcmp(current, record, sizeof current) == 0, "another setting than the one gone back to");
    printf("file   %u bytes", length);
    print_hex(", trailer", one + length - V91_TRAILER_BYTES, V91_TRAILER_BYTES);
    for (unsigned n = 1; n <= V91_JUNCTIONS_1; n++) {
        expect(one[length - 1] == 1, "version 1 is left before a 41st junction");
        length = v91_put(one, length, (uint16_t)(JUNCTION + n), other, sizeof other, two, sizeof two);
        expect(!V91_REFUSED(length), "another junction is refused");
        memcpy(one, two, length);
    }
    expect(length == 42 * V91_ENTRY_BYTES_2(CP_BITS) + V91_TRAILER_BYTES_2, "another length than that of 42 settings");
    expect(v91_look_up(one, length, JUNCTION, current, sizeof current) == 0, "the junction is gone from version 2");
    expect(memcmp(current, record, sizeof current) == 0, "another setting in version 2");
    printf("file   %u bytes", length);
    print_hex(", trailer", one + length - V91_TRAILER_BYTES_2, V91_TRAILER_BYTES_2);
    one[length - 1] = 0;
    expect(v91_look_up(one, length, JUNCTION, current, sizeof current) == V91_FILE_BROKEN, "another version is taken");
}

int main(void)
{
    uint8_t record[V91_RECORD_BYTES], again[V91_CP_BYTES];
    uint8_t bits[8], octets[6 * FRAMES], received[8], marks[FRAMES], heard[V91_HEARD_BYTES];
    uint8_t sender[V91_STATE_BYTES] = { 0 }, receiver[V91_STATE_BYTES] = { 0 };
    uint8_t cold[V91_STATE_BYTES] = { [V91_STATE_DOUBTFUL] = V91_COLD };
    int32_t samples[6 * FRAMES];

    expect(v91_read_cp(cp, sizeof cp, CP_BITS, record, sizeof record) == 0, "the CP is refused");
    expect(record[V91_RECORD_DRN] == 1 && record[V91_RECORD_GRANTED] == 0 && record[V91_RECORD_INDEX(5)] == 0,
           "other fields than the CP has");
    for (int u = 0; u < 128; u++)
        expect((record[V91_RECORD_UCODE(0, u)] >> u % 8 & 1) == (u < 6), "another mask than the CP has");
    expect(v91_read_cp(cp, sizeof cp, CP_BITS, record, V91_RECORD_BYTES - 1) == V91_OUTPUT_TOO_SHORT, "a short record is taken");
    uint32_t answer = v91_write_cp(record, sizeof record, again, sizeof again);
    expect(!V91_REFUSED(answer) && answer == CP_BITS, "the record is refused");
    expect(memcmp(again, cp, sizeof cp) == 0, "the CP written is not the CP read");

    record[V91_RECORD_INDEX(2)] = 1; /* a mask that is empty */
    answer = v91_write_cp(record, sizeof record, again, sizeof again);
    expect(V91_REFUSED(answer) && V91_NUMBER(answer) == V91_INTERVAL_EMPTY && V91_INTERVAL(answer) == 2, "an empty interval is taken");
    record[V91_RECORD_INDEX(2)] = 0;

    memset(bits, 0xff, sizeof bits);
    expect(sizeof bits == V91_DATA_BYTES(FRAMES, 1) && sizeof octets == V91_OCTETS(FRAMES), "other lengths than the header says");
    expect(v91_send(record, sizeof record, false, FRAMES, false, 0, bits, sizeof bits,
                    octets, sizeof octets, sender, sizeof sender) == 0, "the sender refuses");
    expect(v91_receive(record, sizeof record, false, FRAMES, false, octets, sizeof octets, received, sizeof received,
                       marks, sizeof marks, heard, sizeof heard, receiver, sizeof receiver) == 0, "the receiver refuses");
    expect(v91_linear(false, octets, sizeof octets, samples, 6 * FRAMES) == 0, "no samples");

    print_hex("octets", octets, sizeof octets);
    printf("bits  ");
    for (int n = 0; n < 21 * FRAMES; n++)
        printf("%s%d", n % 21 ? "" : " ", received[n / 8] >> n % 8 & 1);
    printf("\n");
    print_hex("marks ", marks, sizeof marks);
    print_hex("state ", sender, sizeof sender);

    bits[7] = 0x7f; /* the 64th bit was not sent */
    expect(memcmp(octets, expected_octets, sizeof octets) == 0, "other octets than expected");
    expect(memcmp(received, bits, sizeof bits) == 0, "other bits than those sent");
    expect(heard[0] == V91_HEARD_NONE, "a sequence is heard where the channel is off");
    expect(marks[0] == 0 && marks[1] == 0 && marks[2] == 0, "a frame is marked");
    expect(memcmp(sender, receiver, sizeof sender) == 0, "the two ends are in different states");
    expect(samples[0] == 16 && samples[1] == -8, "other samples than expected");

    /* From the second frame on: 21 of the 24 doubtful bits are in it, 3 are to come. */
    expect(v91_receive(record, sizeof record, false, 1, false, octets + 6, 6, received, sizeof received,
                       marks, sizeof marks, heard, sizeof heard, cold, sizeof cold) == 0, "the cold receiver refuses");
    printf("cold   %d coming bits to distrust\n", cold[V91_STATE_DOUBTFUL]);
    expect(cold[V91_STATE_DOUBTFUL] == 3, "another count of doubtful bits than expected");
    cold[V91_STATE_DOUBTFUL] = V91_COLD + 1;
    expect(v91_receive(record, sizeof record, false, 0, false, NULL, 0, NULL, 0, NULL, 0, heard, sizeof heard,
                       cold, sizeof cold) == V91_DOUBTFUL_TOO_LARGE, "a count above 24 is taken");
    control_channel(record);
    start_from_cp(record);
    settings_file(record);
    return 0;
}
