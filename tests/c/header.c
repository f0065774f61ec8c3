/*
 * The header comes first in this file, and twice. Each function has just this type, with const where
 * nothing is written. It is compiled as C11 and as C++11.
 */
#include "doorclover.h"
#include "doorclover.h"

typedef doorclover_state state;
typedef const uint8_t *reads;
typedef uint8_t *writes;

extern uint32_t (*const release_is)(void);
extern void (*const fresh_is)(state *);
extern doorclover_begun (*const begin_is)(state *, writes, size_t, size_t);
extern doorclover_fetched (*const fetch_is)(state *, writes, size_t, reads, size_t, writes, size_t,
                                            size_t, size_t, size_t);
extern doorclover_ended (*const end_is)(state *, writes, size_t, size_t);
extern doorclover_written (*const host_write_is)(writes, size_t, size_t, reads, size_t);
extern doorclover_written (*const own_write_is)(state *, writes, size_t, writes, size_t, size_t,
                                                size_t, reads, size_t);
extern doorclover_walked (*const walk_is)(state *, writes, size_t, reads, size_t, writes, size_t,
                                          uint64_t *, size_t, uint32_t *, size_t, size_t, uint64_t,
                                          uint64_t, size_t);
extern doorclover_shown (*const show_is)(const state *, size_t, size_t);
extern doorclover_step (*const frame_read_is)(reads, size_t);
extern doorclover_framed (*const frame_write_is)(writes, size_t, size_t, size_t, size_t, size_t,
                                                 reads, size_t);
extern doorclover_replayed (*const journal_replay_is)(reads, size_t, writes, size_t, writes, size_t,
                                                      writes, size_t, writes, size_t);
extern void (*const map_fresh_is)(uint64_t *, uint64_t *, writes);
extern doorclover_begun (*const map_begin_is)(uint64_t *, uint64_t *, writes);
extern doorclover_fetched (*const map_fetch_is)(const uint64_t *, uint64_t *, writes, reads, size_t,
                                                writes, size_t, size_t, size_t);
extern doorclover_ended (*const map_end_is)(uint64_t *, uint64_t *, writes);
extern doorclover_written (*const map_own_write_is)(const uint64_t *, uint64_t *, writes, writes, size_t,
                                                    size_t, reads, size_t);

uint32_t (*const release_is)(void) = doorclover_release;
void (*const fresh_is)(state *) = doorclover_fresh;
doorclover_begun (*const begin_is)(state *, writes, size_t, size_t) = doorclover_begin;
doorclover_fetched (*const fetch_is)(state *, writes, size_t, reads, size_t, writes, size_t, size_t,
                                     size_t, size_t) = doorclover_fetch;
doorclover_ended (*const end_is)(state *, writes, size_t, size_t) = doorclover_end;
doorclover_written (*const host_write_is)(writes, size_t, size_t, reads,
                                          size_t) = doorclover_host_write;
doorclover_written (*const own_write_is)(state *, writes, size_t, writes, size_t, size_t, size_t,
                                         reads, size_t) = doorclover_own_write;
doorclover_walked (*const walk_is)(state *, writes, size_t, reads, size_t, writes, size_t, uint64_t *,
                                   size_t, uint32_t *, size_t, size_t, uint64_t, uint64_t,
                                   size_t) = doorclover_walk;
doorclover_shown (*const show_is)(const state *, size_t, size_t) = doorclover_show;
doorclover_step (*const frame_read_is)(reads, size_t) = doorclover_frame_read;
doorclover_framed (*const frame_write_is)(writes, size_t, size_t, size_t, size_t, size_t, reads,
                                          size_t) = doorclover_frame_write;
doorclover_replayed (*const journal_replay_is)(reads, size_t, writes, size_t, writes, size_t, writes,
                                               size_t, writes, size_t) = doorclover_journal_replay;
void (*const map_fresh_is)(uint64_t *, uint64_t *, writes) = doorclover_map_fresh;
doorclover_begun (*const map_begin_is)(uint64_t *, uint64_t *, writes) = doorclover_map_begin;
doorclover_fetched (*const map_fetch_is)(const uint64_t *, uint64_t *, writes, reads, size_t, writes,
                                         size_t, size_t, size_t) = doorclover_map_fetch;
doorclover_ended (*const map_end_is)(uint64_t *, uint64_t *, writes) = doorclover_map_end;
doorclover_written (*const map_own_write_is)(const uint64_t *, uint64_t *, writes, writes, size_t, size_t,
                                             reads, size_t) = doorclover_map_own_write;

/* Every part of a map has just this type, as the calls take it. */
extern void part(doorclover_map *m, uint64_t **open, uint64_t (**words)[64], uint8_t (**values)[4096]);
void part(doorclover_map *m, uint64_t **open, uint64_t (**words)[64], uint8_t (**values)[4096])
{
    *open = &m->open;
    *words = &m->words;
    *values = &m->values;
}

/* Every member of a reply has just this type. */
typedef struct {
    doorclover_begun begun;
    doorclover_fetched fetched;
    doorclover_ended ended;
    doorclover_written written;
    doorclover_walked walked;
    doorclover_shown shown;
    doorclover_step step;
    doorclover_framed framed;
    doorclover_replayed replayed;
} replies;

extern void point(replies *r, uint32_t *narrow[9], uint16_t *half[2], size_t *wide[18]);
void point(replies *r, uint32_t *narrow[9], uint16_t *half[2], size_t *wide[18])
{
    narrow[0] = &r->begun.status;
    narrow[1] = &r->fetched.status;
    narrow[2] = &r->ended.status;
    narrow[3] = &r->written.status;
    narrow[4] = &r->shown.status;
    narrow[5] = &r->step.status;
    narrow[6] = &r->framed.status;
    narrow[7] = &r->replayed.early;
    narrow[8] = &r->walked.status;
    half[0] = &r->shown.start;
    half[1] = &r->shown.length;
    wide[0] = &r->fetched.fresh;
    wide[1] = &r->fetched.replayed;
    wide[2] = &r->ended.records;
    wide[3] = &r->ended.bytes;
    wide[4] = &r->written.bytes;
    wide[5] = &r->written.fresh;
    wide[6] = &r->step.kind;
    wide[7] = &r->step.command;
    wide[8] = &r->step.address;
    wide[9] = &r->step.length;
    wide[10] = &r->step.taken;
    wide[11] = &r->framed.length;
    wide[12] = &r->replayed.written;
    wide[13] = &r->replayed.carried;
    wide[14] = &r->replayed.refused;
    wide[15] = &r->walked.spans;
    wide[16] = &r->fetched.looked_at;
    wide[17] = &r->walked.looked_at;
}

/* A status can be compared and switched on without a warning. */
extern int is_full(doorclover_status status);
int is_full(doorclover_status status)
{
    switch (status) {
    case DOORCLOVER_TOO_MANY_BYTES:
    case DOORCLOVER_TOO_MANY_RECORDS:
        return 1;
    default:
        return status != DOORCLOVER_OK && status > DOORCLOVER_ENTRY_MISALIGNED;
    }
}
