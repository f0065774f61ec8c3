/*
 * doorclover.h - a fetch cache for controller firmware.
 *
 * Firmware reads a host's descriptor once to check it and once to use it, and the host may change
 * it in between. This cache stands between the two: for each command it reads a host byte once,
 * keeps it, and gives the same byte again until the command ends or writes there itself; what it wrote
 * it is given from then on. The functions are proved in the language Rattle to do what the agreed
 * scope says; this header says it in short, docs/RULES.md in full.
 *
 * Words
 *   window       host memory that is lent to a call: bytes, addressed from 0
 *   command      one of the numbers 0 to 7, opened by begin and closed by end
 *   span         the bytes of the window from an address on, as many as a length says; those that a
 *                walk gives are of host memory, in the window or not
 *   record       a span whose bytes an open command holds
 *   state        which commands are open, and the records of each
 *   store        the held bytes; command c has the 4,096 from 4,096 * c on
 *   destination  where a fetch delivers
 *   page         4,096 bytes of memory, from a multiple of 4,096 on
 *   scratch      where a walk has the page entries that it fetches, until it returns
 *   map          a byte map: a smaller engine, with one command and no store (see below)
 *
 * What every call promises
 *   - It is done or refused, never half done. Done: the status is DOORCLOVER_OK, and all that is
 *     said of the call has happened. Refused: the status is the lowest number that applies, the
 *     other members of the reply are 0, and no byte of state, store, map, window, destination or
 *     output has changed. (A journal runs many calls; this holds for each of them. A map's fetch and
 *     own write judge 30 in the place of 7, and so give it before 9.)
 *   - A walk, which makes fetches itself, is the exception. It judges in an order of its own. Refused, it
 *     leaves window, addresses and lengths as they were, but what fetches of it that were accepted by then
 *     hold stays held; and all of its scratch is zero, unless it was refused before PRP1 was judged.
 *   - Numbers may have any value. What is out of range is refused, and address + length is judged
 *     as the true sum, which does not wrap.
 *   - A state may hold any words, a store any bytes, and a map any words and bytes. A state's words,
 *     or a map, that do not hold together are refused with DOORCLOVER_STATE_BROKEN by every call that
 *     looks at them.
 *   - No call reads or writes outside the lengths it is given, and each returns.
 *   - A call changes nothing that another command holds.
 *   - Nothing is allocated, and there are no globals, no thread-local data and no start-up code. All
 *     memory is the caller's. The archive needs memcpy and memset from the link, and nothing else.
 *
 * What the caller answers for, since C cannot check it
 *   - Each pointer is good for the length beside it (for so many places, of a walk's addresses and
 *     lengths), a state for all its words, and the parts of a map for one, 64 and 4,096 elements. A
 *     null pointer may stand where the length is 0, and only there; a state is never null, nor is a
 *     part of a map.
 *   - No two arguments of a call share a byte.
 *   - A state is aligned for uint16_t, the first two parts of a map and a walk's addresses for uint64_t,
 *     and its lengths for uint32_t. Bytes may lie anywhere.
 *   - Until a call returns, nobody else (another core, an interrupt, a DMA engine) writes what is lent
 *     to it; of the window see below. Two calls on one state, one store or one map must not overlap in
 *     time; calls on different ones may.
 *   - Between calls nobody but these functions writes state and store, and the two stay together: a
 *     replayed byte is the byte in the store. The same holds of the three parts of a map. If somebody
 *     does write them, the calls stay within bounds and do what is said of them for the words and
 *     bytes that they find.
 *
 * The window, which the host writes
 *   - Between two calls it may change in any way: that is what the cache is for.
 *   - During a call: the proof speaks of the window's bytes as they stand at the call. While somebody
 *     writes the window during a call, nothing is promised by proof of the values of that call, since
 *     a compiled load may be repeated. Where the host cannot be held off, copy the span into memory
 *     that it cannot write, at the same address of a window of your own, and lend that window.
 *
 * Stack, in bytes, arguments on it included and the return address not. It was measured on a painted
 * stack, and is not proved. What your memcpy and memset take comes on top.
 *     fresh   0      begin 128      host write  88      frame read   104
 *     show   96      fetch 536      own write  584      frame write   80
 *                    end   176      walk       792      journal     3016
 *     of the byte map: fresh 16, begin 128, fetch 368, own write 320, end 160
 * DOORCLOVER_STACK and DOORCLOVER_JOURNAL_STACK are these with some room.
 *
 * Targets: archives for x86-64, AArch64 and RISC-V 64 (rv64gc, lp64d), little-endian, ELF, by the
 * target's own calling convention. The stack figures above are those of x86-64; by the compiler's
 * figures the two sizes below are enough on all three. The code uses vector registers on x86-64
 * (SSE2) and AArch64, and on x86-64 the red zone of 128 bytes below the stack pointer, so that an
 * interrupt handler must leave these as they are. On AArch64 a load or store may be unaligned, which
 * asks for normal memory. No system calls are made.
 *
 * The header is for C11 and C++11.
 */
#ifndef DOORCLOVER_H
#define DOORCLOVER_H

#include <stddef.h>
#include <stdint.h>

#if defined(__GNUC__)
#define DOORCLOVER_USE_REPLY __attribute__((warn_unused_result))
#else
#define DOORCLOVER_USE_REPLY
#endif

#ifdef __cplusplus
extern "C" {
#endif

/* The number of this interface; doorclover_release() gives that of the archive. */
#define DOORCLOVER_RELEASE 3u

/* Limits. */
#define DOORCLOVER_COMMANDS 8u      /* commands are 0 to 7 */
#define DOORCLOVER_RECORDS  64u     /* the most records of a command */
#define DOORCLOVER_HELD     4096u   /* the most distinct bytes that a command holds */
#define DOORCLOVER_TRANSFER 4096u   /* the most bytes of one fetch or write */
#define DOORCLOVER_WINDOW   65536u  /* the longest window, in bytes */
#define DOORCLOVER_STORE    32768u  /* the one length of the store, in bytes */

#define DOORCLOVER_PAGE          4096u   /* bytes of a page */
#define DOORCLOVER_WALK_TRANSFER 65536u  /* the most bytes of a walk's transfer */
#define DOORCLOVER_WALK_SPANS    17u     /* the most spans of a walk, and the fewest places for them */
#define DOORCLOVER_WALK_SCRATCH  128u    /* the fewest bytes of its scratch: 8 * 16 */

#define DOORCLOVER_COMMAND_WORDS 129u   /* words of a command: 1 + 2 * 64 */
#define DOORCLOVER_STATE_WORDS   1032u  /* words of a state: 8 * 129 */
#define DOORCLOVER_FRAME_HEAD    5u     /* bytes of a frame before its data */

#define DOORCLOVER_MAP_ADDRESSES 4096u  /* addresses of a byte map, and so its longest window */
#define DOORCLOVER_MAP_WORDS     64u    /* words of a byte map, with a bit for each address */

/* Stack that is enough for any call but the journal's, and for the journal's. */
#define DOORCLOVER_STACK         1024u
#define DOORCLOVER_JOURNAL_STACK 4096u

/* 0, or why a call was refused. The width is fixed here, since that of a C enum is not. */
typedef uint32_t doorclover_status;
enum {
    DOORCLOVER_OK = 0,

    /* because of the input */
    DOORCLOVER_FRAME_TOO_SHORT  = 1,   /* fewer than 5 bytes for a frame */
    DOORCLOVER_UNKNOWN_KIND     = 2,   /* kind 5 or above */
    DOORCLOVER_FIELD_NOT_ZERO   = 3,   /* a field or a spare bit of a frame that must be zero */
    DOORCLOVER_LENGTH_TOO_LONG  = 4,   /* length above 4,096 */
    DOORCLOVER_DATA_MISMATCH    = 5,   /* a frame's data are not as many as its length says */
    DOORCLOVER_COMMAND_TOO_HIGH = 6,   /* command above 7 */
    DOORCLOVER_WINDOW_TOO_LONG  = 7,   /* window longer than 65,536 */
    DOORCLOVER_STORE_WRONG_SIZE = 8,   /* store not 32,768 bytes */
    DOORCLOVER_OUTSIDE_WINDOW   = 9,   /* address + length above the window's length */
    DOORCLOVER_BUFFER_TOO_SHORT = 10,  /* destination or output too short, or what a walk is lent */
    DOORCLOVER_ADDRESS_TOO_HIGH = 11,  /* frame writer: address above 65,535 */

    /* because of the state */
    DOORCLOVER_STATE_BROKEN         = 20,  /* the words, or the map, do not hold together */
    DOORCLOVER_COMMAND_NOT_OPEN     = 21,
    DOORCLOVER_COMMAND_ALREADY_OPEN = 22,
    DOORCLOVER_TOO_MANY_BYTES       = 23,  /* the command would hold more than 4,096 bytes */
    DOORCLOVER_TOO_MANY_RECORDS     = 24,  /* it would have more than 64 records after joining */
    DOORCLOVER_NO_SUCH_RECORD       = 25,  /* show: the index is not below the number of records */

    /* because of the input, by the byte map alone */
    DOORCLOVER_WINDOW_BEYOND_MAP = 30,  /* window longer than 4,096 */

    /* because of the input, by a walk alone */
    DOORCLOVER_TRANSFER_OUT_OF_RANGE = 31,  /* transfer of no bytes, or of more than 65,536 */
    DOORCLOVER_ENTRY_MISALIGNED      = 32   /* PRP1, PRP2 or an entry is not the multiple it must be */
};

/* The kinds of a step frame. */
enum {
    DOORCLOVER_KIND_BEGIN      = 0,
    DOORCLOVER_KIND_FETCH      = 1,
    DOORCLOVER_KIND_END        = 2,
    DOORCLOVER_KIND_HOST_WRITE = 3,
    DOORCLOVER_KIND_OWN_WRITE  = 4
};

/*
 * The state. Command c has the 129 words from words[129 * c] on:
 *
 *     word 0            0 if the command is closed, else 1 + the number of its records
 *     word 1 + 2 * i    where record i starts
 *     word 2 + 2 * i    how many bytes it has
 *
 * The words hold together if, for each command, there are at most 64 records; they stand by ascending
 * address with at least one address between each and the next (records that touch do not hold
 * together), have 1 byte or more and end at 65,536 or below; they have at most 4,096 bytes in all; and
 * the words behind them are zero (all 128 of a closed command).
 *
 * All zero is the fresh state, so that a static one needs no call. There is no padding: a state may
 * be compared and checksummed byte for byte, and kept and taken up again together with its store, by
 * the archive that left it.
 */
typedef struct doorclover_state {
    uint16_t words[DOORCLOVER_STATE_WORDS];
} doorclover_state;

/*
 * The byte map: a plain engine for one command and a window of at most 4,096 bytes, to read and to
 * compare with. It has neither records nor a store, but for each address a bit and a value:
 *
 *     open      0 if the command is closed; any other value if it is open
 *     words     the byte at address x is held if bit x % 64 of words[x / 64] is set, where bit 0 is the
 *               lowest
 *     values    the held byte of each address, and 0 where none is held
 *
 * A run of set bits, as long as it can be, stands for a record. A map holds together if no bit is set
 * unless it is open, the value of each address that is not held is 0, and there are at most 64 runs.
 * All 4,096 addresses count, whatever window is lent.
 *
 * All zero is the fresh map, so that a static one needs no call. There is no padding: a map has 4,616
 * bytes, aligned as uint64_t, and may be compared, checksummed and kept byte for byte.
 */
typedef struct doorclover_map {
    uint64_t open;
    uint64_t words[DOORCLOVER_MAP_WORDS];
    uint8_t values[DOORCLOVER_MAP_ADDRESSES];
} doorclover_map;

/* Replies. Of a refused call all members but the status are 0. */
typedef struct doorclover_begun {
    doorclover_status status;
} doorclover_begun;

typedef struct doorclover_fetched {
    doorclover_status status;
    size_t fresh;      /* bytes of the span that were read from the window, and are held now */
    size_t replayed;   /* bytes of the span that were held before */
    size_t looked_at;  /* records that the search looked at, for tuning; 0 for length 0, and of a map */
} doorclover_fetched;

typedef struct doorclover_ended {
    doorclover_status status;
    size_t records;  /* how many records the command had */
    size_t bytes;    /* how many distinct bytes it held */
} doorclover_ended;

typedef struct doorclover_written {
    doorclover_status status;
    size_t bytes;  /* how many were written */
    size_t fresh;  /* how many of their addresses the command had not held before; 0 of a host write */
} doorclover_written;

typedef struct doorclover_walked {
    doorclover_status status;
    size_t spans;      /* how many there are, in the front of addresses and lengths */
    size_t looked_at;  /* records that its list fetches looked at, added up; 0 if it makes none */
} doorclover_walked;

typedef struct doorclover_shown {
    doorclover_status status;
    uint16_t start;
    uint16_t length;
} doorclover_shown;

typedef struct doorclover_step {
    doorclover_status status;
    size_t kind;
    size_t command;
    size_t address;
    size_t length;
    size_t taken;  /* bytes of the frame; its data are frame[5] up to frame[taken - 1] */
} doorclover_step;

typedef struct doorclover_framed {
    doorclover_status status;
    size_t length;  /* bytes of the frame */
} doorclover_framed;

/* A journal's run has no status. */
typedef struct doorclover_replayed {
    size_t written;  /* bytes of the log that are in the output */
    size_t carried;  /* frames that were carried out */
    size_t refused;  /* frames that were read and whose call was refused */
    uint32_t early;  /* 1 if an unreadable frame ended the run, else 0 */
} doorclover_replayed;

/* The DOORCLOVER_RELEASE of the archive. */
uint32_t doorclover_release(void);

/* Makes the fresh state: every command is closed. A store needs no clearing, begin does that. */
void doorclover_fresh(doorclover_state *state);

/*
 * Opens a closed command with no records, and zeroes its part of the store.
 * Refused with 6, 8, 20, 22.
 */
DOORCLOVER_USE_REPLY doorclover_begun doorclover_begin(
    doorclover_state *state,
    uint8_t *store, size_t store_size,
    size_t command);

/*
 * Delivers a span into the front of the destination. A byte that the command holds comes from the
 * store. Any other is read from the window, and is held from now on. The records that share a byte
 * with the span or touch it become one with it, so that records are the longest unbroken runs of
 * what the command holds. The destination behind the span does not change. A length of 0 changes
 * nothing. A span that reaches past the window of this call is refused, even where it is held.
 * The search goes over the records that the command has before the call, from the lowest start upward,
 * and ends with the first that starts above address + length. looked_at counts them, that one included.
 * Refused with 4, 6 to 10, 20, 21, 23, 24.
 */
DOORCLOVER_USE_REPLY doorclover_fetched doorclover_fetch(
    doorclover_state *state,
    uint8_t *store, size_t store_size,
    const uint8_t *window, size_t window_size,
    uint8_t *destination, size_t destination_size,
    size_t command, size_t address, size_t length);

/*
 * Closes an open command, drops its records, and zeroes its part of the store. From the fresh state on,
 * the bytes of the reply are the sum of what its fetches and own writes replied as fresh, and of the bytes
 * that its walks, refused ones too, read from the window.
 * Refused with 6, 8, 20, 21.
 */
DOORCLOVER_USE_REPLY doorclover_ended doorclover_end(
    doorclover_state *state,
    uint8_t *store, size_t store_size,
    size_t command);

/*
 * Copies bytes into the window, as a host does. No state is asked.
 * Refused with 4, 7, 9.
 */
DOORCLOVER_USE_REPLY doorclover_written doorclover_host_write(
    uint8_t *window, size_t window_size,
    size_t address,
    const uint8_t *bytes, size_t size);

/*
 * The same by an open command, which holds the bytes from now on as if it had fetched them there, over
 * older held values too: its later fetches give what it wrote last, whatever the host writes. What is
 * held comes from the given bytes; the window is written, and not read. The records become those that
 * a fetch of the span would make. A length of 0 writes and holds nothing, and replies 0 and 0. The
 * store must have its length even where nothing is held anew.
 * Refused with 4, 6 to 9, 20, 21, 23, 24, and then state, store and window are as they were.
 */
DOORCLOVER_USE_REPLY doorclover_written doorclover_own_write(
    doorclover_state *state,
    uint8_t *store, size_t store_size,
    uint8_t *window, size_t window_size,
    size_t command, size_t address,
    const uint8_t *bytes, size_t size);

/*
 * Walks the PRP entries of an NVM Express command: gives, page by page, the spans of host memory that a
 * transfer of 1 to 65,536 bytes takes. PRP1 is where the first one starts, a multiple of 4, which may be
 * inside a page. Every further page of the transfer has an entry, its address, a multiple of 4,096:
 *
 *     for no further page   PRP2 is not looked at.
 *     for one               PRP2 is the entry.
 *     for two or more       PRP2 is where a list of entries starts in the window, a multiple of 8. An
 *                           entry has 8 bytes, least byte first. A list that is longer than what is
 *                           left of its page goes on elsewhere: the last entry in the page leads
 *                           onward then. It is no page of the transfer but the address of the next
 *                           list, a multiple of 4,096 too.
 *
 * The entries needed of a list are one fetch of the command, as by doorclover_fetch: bytes that it holds
 * are replayed, and the others are read from the window and held from now on. So until its end, unless it
 * writes there itself, the same walk by the same command gives the same spans again if it is accepted,
 * whatever the host has written over the entries. No other byte of the window is read. The pages
 * themselves may lie anywhere, in the window or not, and 0 is an address too.
 *
 * spans is their number. Span i has its address in addresses[i] and its length in lengths[i].
 * The lengths add up to the transfer, and neighbours stay two spans. Places behind the spans do not change.
 * looked_at is the sum over the list fetches, of which the second looks at the records that the first left.
 *
 * Refused with 31, 10, 6, 7, 8, 20, 21, the first of them in this order that applies, and then nothing has
 * changed. 10 stands for a scratch of fewer than 128 bytes, and for addresses or lengths of fewer than 17
 * places, whatever the transfer needs.
 * Else refused with 32, 9, 23, 24, as the walk comes to PRP1, PRP2 and the lists: 32 at what is not the
 * multiple that it must be, and one of the others if the fetch of a list is refused with it. All entries of
 * a list, an onward one last, are judged before the next list is fetched. Then addresses and lengths are as
 * they were, and the entries that were fetched stay held.
 * Once PRP1 has been judged, refused or done, all of the scratch is zero at return.
 */
DOORCLOVER_USE_REPLY doorclover_walked doorclover_walk(
    doorclover_state *state,
    uint8_t *store, size_t store_size,
    const uint8_t *window, size_t window_size,
    uint8_t *scratch, size_t scratch_size,
    uint64_t *addresses, size_t address_places,
    uint32_t *lengths, size_t length_places,
    size_t command, uint64_t prp1, uint64_t prp2, size_t transfer);

/*
 * Gives a record of an open command, counted from 0.
 * Refused with 6, 20, 21, 25.
 */
DOORCLOVER_USE_REPLY doorclover_shown doorclover_show(
    const doorclover_state *state, size_t command, size_t index);

/*
 * Step frames: a call in 5 bytes, most significant bit first. Kind 3 bits, command 3, address 16,
 * length 13, and 5 spare bits that are zero. Begin and end have address and length 0, a host write
 * has command 0. The data of the two writes, as many bytes as the length, follow the 5.
 */

/*
 * Reads the frame at the front of the bytes; what stands behind it is not looked at.
 * Refused with 1 to 5.
 */
DOORCLOVER_USE_REPLY doorclover_step doorclover_frame_read(const uint8_t *frame, size_t size);

/*
 * Writes a frame to the front of the output; behind it the output does not change.
 * Refused with 2 to 6, 10, 11.
 */
DOORCLOVER_USE_REPLY doorclover_framed doorclover_frame_write(
    uint8_t *output, size_t output_size,
    size_t kind, size_t command, size_t address, size_t length,
    const uint8_t *data, size_t data_size);

/*
 * Carries out a journal, frame after frame, from the fresh state, and writes its log to the output: a
 * line for each frame. A log that does not fit is cut, and the run goes on. An unreadable frame has
 * the last line and ends the run. Store, window and destination are handed on from frame to frame.
 */
DOORCLOVER_USE_REPLY doorclover_replayed doorclover_journal_replay(
    const uint8_t *journal, size_t journal_size,
    uint8_t *store, size_t store_size,
    uint8_t *window, size_t window_size,
    uint8_t *destination, size_t destination_size,
    uint8_t *output, size_t output_size);

/*
 * The byte map's calls. A map's parts are lent one by one, as &map.open, map.words, map.values. It is
 * proved that a list of these calls, begun on the fresh map and with no window above 4,096 bytes, is
 * answered as the calls above answer it for any one command of a fresh state whose store has 32,768
 * bytes: same status, same numbers but looked_at, same bytes delivered and written; and after each call
 * every run is a record of that command, and every record a run.
 */

/* Makes the fresh map: the command is closed, and nothing is held. */
void doorclover_map_fresh(uint64_t *open, uint64_t *words, uint8_t *values);

/*
 * Opens the closed command (open is then 1), and zeroes words and values.
 * Refused with 20, 22.
 */
DOORCLOVER_USE_REPLY doorclover_begun doorclover_map_begin(
    uint64_t *open, uint64_t *words, uint8_t *values);

/*
 * Delivers a span into the front of the destination, as doorclover_fetch does. A byte that is held
 * comes from the values. Any other is read from the window, and is held from now on: its bit is set,
 * and it is its address's value. Refused with 24 if there would be more than 64 runs. The map has room
 * for every byte of its window, and so there is no 23; it has no records, and so looked_at is 0.
 * Refused with 4, 30, 9, 10, 20, 21, 24, the first of them in this order that applies.
 */
DOORCLOVER_USE_REPLY doorclover_fetched doorclover_map_fetch(
    const uint64_t *open, uint64_t *words, uint8_t *values,
    const uint8_t *window, size_t window_size,
    uint8_t *destination, size_t destination_size,
    size_t address, size_t length);

/*
 * Closes the open command (open is then 0), and zeroes words and values. The reply has the number of
 * runs as that of records, and the number of set bits as that of bytes.
 * Refused with 20, 21.
 */
DOORCLOVER_USE_REPLY doorclover_ended doorclover_map_end(
    uint64_t *open, uint64_t *words, uint8_t *values);

/*
 * Copies bytes into the window and holds them, as doorclover_own_write does: the bit of each address is
 * set, and the byte given for it is its value, over an older one too. The window is written, and not
 * read. Refused with 24 if there would be more than 64 runs; there is no 23 here either.
 * Refused with 4, 30, 9, 20, 21, 24, the first of them in this order that applies.
 */
DOORCLOVER_USE_REPLY doorclover_written doorclover_map_own_write(
    const uint64_t *open, uint64_t *words, uint8_t *values,
    uint8_t *window, size_t window_size,
    size_t address,
    const uint8_t *bytes, size_t size);

#ifdef __cplusplus
}
#endif

/* The shapes that the archive was built for. */
#if defined(__cplusplus)
#define DOORCLOVER_ASSERT(what) static_assert(what, #what)
#define DOORCLOVER_ALIGN(type) alignof(type)
#elif defined(__STDC_VERSION__) && __STDC_VERSION__ >= 201112L
#define DOORCLOVER_ASSERT(what) _Static_assert(what, #what)
#define DOORCLOVER_ALIGN(type) _Alignof(type)
#else
#error "doorclover.h is for C11 and C++11"
#endif

DOORCLOVER_ASSERT(sizeof(size_t) == 8 && sizeof(void *) == 8);
DOORCLOVER_ASSERT(DOORCLOVER_COMMAND_WORDS == 1 + 2 * DOORCLOVER_RECORDS);
DOORCLOVER_ASSERT(DOORCLOVER_STATE_WORDS == DOORCLOVER_COMMANDS * DOORCLOVER_COMMAND_WORDS);
DOORCLOVER_ASSERT(DOORCLOVER_STORE == DOORCLOVER_COMMANDS * DOORCLOVER_HELD);
DOORCLOVER_ASSERT(DOORCLOVER_WALK_SPANS == DOORCLOVER_WALK_TRANSFER / DOORCLOVER_PAGE + 1);
DOORCLOVER_ASSERT(DOORCLOVER_WALK_SCRATCH == 8 * (DOORCLOVER_WALK_SPANS - 1));
DOORCLOVER_ASSERT(sizeof(doorclover_state) == 2064);
DOORCLOVER_ASSERT(DOORCLOVER_ALIGN(doorclover_state) == 2);
DOORCLOVER_ASSERT(DOORCLOVER_MAP_ADDRESSES == 64 * DOORCLOVER_MAP_WORDS);
DOORCLOVER_ASSERT(sizeof(doorclover_map) == 4616 && offsetof(doorclover_map, open) == 0);
DOORCLOVER_ASSERT(offsetof(doorclover_map, words) == 8 && offsetof(doorclover_map, values) == 520);
DOORCLOVER_ASSERT(DOORCLOVER_ALIGN(doorclover_map) == 8);
DOORCLOVER_ASSERT(sizeof(doorclover_begun) == 4);
DOORCLOVER_ASSERT(sizeof(doorclover_fetched) == 32 && offsetof(doorclover_fetched, replayed) == 16);
DOORCLOVER_ASSERT(offsetof(doorclover_fetched, looked_at) == 24);
DOORCLOVER_ASSERT(sizeof(doorclover_ended) == 24 && offsetof(doorclover_ended, bytes) == 16);
DOORCLOVER_ASSERT(sizeof(doorclover_written) == 24 && offsetof(doorclover_written, bytes) == 8);
DOORCLOVER_ASSERT(offsetof(doorclover_written, fresh) == 16);
DOORCLOVER_ASSERT(sizeof(doorclover_walked) == 24 && offsetof(doorclover_walked, spans) == 8);
DOORCLOVER_ASSERT(offsetof(doorclover_walked, looked_at) == 16);
DOORCLOVER_ASSERT(sizeof(doorclover_shown) == 8 && offsetof(doorclover_shown, length) == 6);
DOORCLOVER_ASSERT(sizeof(doorclover_step) == 48 && offsetof(doorclover_step, taken) == 40);
DOORCLOVER_ASSERT(sizeof(doorclover_framed) == 16 && offsetof(doorclover_framed, length) == 8);
DOORCLOVER_ASSERT(sizeof(doorclover_replayed) == 32 && offsetof(doorclover_replayed, early) == 24);

#undef DOORCLOVER_ASSERT
#undef DOORCLOVER_ALIGN

#endif
