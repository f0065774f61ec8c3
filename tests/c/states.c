/* States that no call has left, and where a state may stand. */
#include "desk.h"
#include "tests.h"

#include <stdio.h>
#include <string.h>

enum { MOST_WORDS = 16 };

/* A word of a command and its value. */
typedef struct {
    size_t command, word;
    uint16_t value;
} word;

/* A state by the words that are not zero; the list ends with a value of 0. */
typedef struct {
    const char *name;
    word words[MOST_WORDS];
} words;

static const words broken[] = {
    {"a start in a closed command", {{2, 1, 5}}},
    {"a length in a closed command", {{2, 2, 5}}},
    {"the last word of a closed command", {{7, 128, 1}}},
    {"the last word of an open one", {{0, 0, 1}, {0, 128, 1}}},
    {"65 records", {{0, 0, 66}}},
    {"65,534 records", {{0, 0, 65535}}},
    {"a record that is not there", {{0, 0, 2}}},
    {"a record of no bytes", {{0, 0, 2}, {0, 1, 9}}},
    {"a record of no bytes behind another", {{0, 0, 3}, {0, 1, 9}, {0, 2, 1}, {0, 3, 20}}},
    {"records that share a byte", {{0, 0, 3}, {0, 1, 9}, {0, 2, 3}, {0, 3, 11}, {0, 4, 1}}},
    {"records that touch", {{0, 0, 3}, {0, 1, 9}, {0, 2, 3}, {0, 3, 12}, {0, 4, 1}}},
    {"records that touch at the last address", {{6, 0, 3}, {6, 1, 65534}, {6, 2, 1}, {6, 3, 65535}, {6, 4, 1}}},
    {"records that descend", {{0, 0, 3}, {0, 1, 9}, {0, 2, 1}, {0, 3, 5}, {0, 4, 1}}},
    {"the same record twice", {{0, 0, 3}, {0, 1, 9}, {0, 2, 1}, {0, 3, 9}, {0, 4, 1}}},
    {"a record past the last address", {{0, 0, 2}, {0, 1, 65535}, {0, 2, 2}}},
    {"4,097 bytes in one record", {{0, 0, 2}, {0, 1, 1}, {0, 2, 4097}}},
    {"4,097 bytes in two", {{0, 0, 3}, {0, 2, 4096}, {0, 3, 4096}, {0, 4, 1}}},
    {"a sum that wraps in 16 bits", {{0, 0, 3}, {0, 2, 32768}, {0, 3, 32768}, {0, 4, 32768}}},
    {"a record too many for the count", {{0, 0, 2}, {0, 1, 1}, {0, 2, 1}, {0, 3, 5}, {0, 4, 1}}},
};

static const words whole[] = {
    {"records with one address between", {{0, 0, 3}, {0, 1, 9}, {0, 2, 3}, {0, 3, 13}, {0, 4, 1}}},
    {"a record at the last address", {{0, 0, 2}, {0, 1, 65535}, {0, 2, 1}}},
    {"4,096 bytes in one record", {{0, 0, 2}, {0, 1, 61440}, {0, 2, 4096}}},
    {"4,096 bytes in two", {{0, 0, 3}, {0, 2, 4095}, {0, 3, 5000}, {0, 4, 1}}},
    {"open without records", {{0, 0, 1}}},
};

static void lay(const desk *d, const words *w)
{
    doorclover_fresh(state_of(d));
    for (size_t i = 0; i < MOST_WORDS && w->words[i].value != 0; i++)
        words_of(d, w->words[i].command)[w->words[i].word] = w->words[i].value;
}

/* Says which state it was if a check has failed. */
static void name_if(unsigned long before, const words *w)
{
    if (failures != before)
        printf("  with %s\n", w->name);
}

void test_broken_words(void)
{
    desk d = fresh_desk(), two = d;
    two.bytes = lend(2, 0x99);
    for (size_t i = 0; i < sizeof broken / sizeof broken[0]; i++) {
        unsigned long before = failures;
        lay(&d, &broken[i]);
        for (size_t c = 0; c < DOORCLOVER_COMMANDS; c++) {
            walking one = {.command = c, .transfer = 1};
            walking many = {.command = c, .transfer = DOORCLOVER_WALK_TRANSFER};
            begin_refused(&d, DOORCLOVER_STATE_BROKEN, c);
            fetch_refused(&d, DOORCLOVER_STATE_BROKEN, c, 9, 3);
            fetch_refused(&d, DOORCLOVER_STATE_BROKEN, c, 0, 0);
            end_refused(&d, DOORCLOVER_STATE_BROKEN, c);
            own_refused(&d, DOORCLOVER_STATE_BROKEN, c, 0);
            own_refused(&two, DOORCLOVER_STATE_BROKEN, c, 9);
            walk_refused(&d, DOORCLOVER_STATE_BROKEN, &one);
            walk_refused(&d, DOORCLOVER_STATE_BROKEN, &many);
            show_refused(&d, DOORCLOVER_STATE_BROKEN, c, 0);
        }
        name_if(before, &broken[i]);
    }
}

/* Each record is written over, at its first byte and at its last, and is held as before. */
static void write_over_records(const desk *d, size_t records)
{
    const uint16_t *w = words_of(d, 0);
    for (size_t k = 0; k < records; k++) {
        own_write(d, 0, w[1 + 2 * k], 0);
        own_write(d, 0, (size_t)w[1 + 2 * k] + w[2 + 2 * k] - 1, 0);
    }
}

void test_words_at_their_limits(void)
{
    desk d = fresh_desk(), one = d;
    one.window = lend(DOORCLOVER_WINDOW, 7);
    one.bytes = lend(1, 0x99);
    for (size_t i = 0; i < sizeof whole / sizeof whole[0]; i++) {
        unsigned long before = failures;
        lay(&d, &whole[i]);
        const uint16_t *w = words_of(&d, 0);
        size_t records = w[0] - 1u, bytes = (size_t)w[2] + w[4];
        begin_refused(&d, DOORCLOVER_COMMAND_ALREADY_OPEN, 0);
        for (size_t k = 0; k < records; k++)
            show(&d, 0, k, w[1 + 2 * k], w[2 + 2 * k]);
        show_refused(&d, DOORCLOVER_NO_SUCH_RECORD, 0, records);
        own_write(&d, 0, 0, 0);
        write_over_records(&one, records);
        fetch(&d, 0, 0, 0, 0, 0);
        end(&d, 0, records, bytes);
        name_if(before, &whole[i]);
    }
}

/* A state among other things, as firmware has it. */
typedef struct {
    uint16_t before;
    doorclover_state state;
    uint16_t behind[3];
} device;

void test_state_in_a_struct(void)
{
    desk d = fresh_desk();
    lent *whole_device = lend(sizeof(device), 0x77);
    lent inside = *whole_device;
    CHECK(sizeof(device) == 2 + 2064 + 6);
    inside.bytes += offsetof(device, state);
    inside.size = sizeof(doorclover_state);
    d.state = &inside;
    keep_all();
    doorclover_fresh(state_of(&d));
    allow(d.state, 0, d.state->size);
    CHECK(all_kept());
    d.bytes = lend(20, 0x99);
    for (size_t c = 0; c < DOORCLOVER_COMMANDS; c++) {
        begin(&d, c);
        fetch(&d, c, c, 100, 100, 0);
        own_write(&d, c, c + 90, 10);
    }
    for (size_t c = 0; c < DOORCLOVER_COMMANDS; c++)
        end(&d, c, 1, 110);
}

/* The same calls on two states that lie side by side, taking turns. Each leaves the other alone. */
void test_states_side_by_side(void)
{
    desk d = fresh_desk(), pair[2] = {d, d};
    lent *both = lend(2 * sizeof(doorclover_state), 0);
    lent half[2] = {*both, *both};
    half[1].bytes += sizeof(doorclover_state);
    for (size_t i = 0; i < 2; i++) {
        half[i].size = sizeof(doorclover_state);
        pair[i].state = &half[i];
        pair[i].store = lend(DOORCLOVER_STORE, (uint8_t)i);
    }
    for (size_t c = 0; c < DOORCLOVER_COMMANDS; c++) {
        begin(&pair[0], c);
        begin(&pair[1], c);
        for (size_t k = 0; k < DOORCLOVER_RECORDS; k++) {
            fetch(&pair[0], c, 3 * k + c, 2, 2, 0);
            fetch(&pair[1], c, 3 * k + c, 2, 2, 0);
        }
    }
    CHECK(memcmp(half[0].bytes, half[1].bytes, sizeof(doorclover_state)) == 0);
    CHECK(memcmp(pair[0].store->bytes, pair[1].store->bytes, 128) == 0);
    end(&pair[0], 7, 64, 128);
    end(&pair[1], 0, 64, 128);
    show(&pair[0], 0, 63, 189, 2);
    show(&pair[1], 7, 63, 196, 2);
}
