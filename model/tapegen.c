/* Prints a pseudo-random tape for the machine: tapegen SEED.

   The same seed gives the same tape everywhere, so no expression may hold
   two draws whose order the language leaves open. */

#include "decimal.h"

#include <stdbool.h>
#include <stdint.h>
#include <stdio.h>
#include <stdlib.h>
#include <string.h>

#define SLOTS 16
#define SLOT_FIRST 2
#define SLOT_LAST 14
#define MEMORY_END 0x10000
#define PAGE 0x1000
#define PAGES_PAST 0x2000
#define EXPONENT_MIN 12
#define EXPONENT_MAX 15
#define LIMIT (UINT64_C(1) << 34)

#define RECORD_BYTES 16
#define RECORDS_MAX 4096
#define TAPE_MAX (RECORDS_MAX * RECORD_BYTES)

/* Room for a tape that is too long by a record. */
#define TAPE_ROOM (TAPE_MAX + RECORD_BYTES)

#define SPARE_BITS 20
#define PLACES 8

enum operation {
    CREATE = 1,
    ENTER,
    PAUSE,
    FINISH,
    DESTROY,
    LOAD,
    STORE,
    FETCH,
    REGISTER
};

struct record {
    unsigned operation;
    unsigned slot;
    unsigned width;
    uint64_t spare;
    uint64_t address;
    uint64_t value;
};

struct slot {
    bool live;
    bool finished;
    uint64_t first;
    uint64_t past;
};

/* The slots as the calls so far leave them, and the last places that were
   stored to: they only steer the choice of calls and addresses. */
struct generator {
    uint64_t state;
    struct slot slots[SLOTS];
    unsigned running;   /* the running slot; 0 for the OS */
    uint64_t places[PLACES];
    unsigned stores;
    size_t length;
    unsigned char tape[TAPE_ROOM];
};

#include "draws.h"

/* Records. */

static void write_half(unsigned char *bytes, uint64_t half)
{
    for (unsigned i = 0; i < RECORD_BYTES / 2; i++)
        bytes[i] = (unsigned char)(half >> (56 - 8 * i));
}

static uint64_t read_half(const unsigned char *bytes)
{
    uint64_t half = 0;

    for (unsigned i = 0; i < RECORD_BYTES / 2; i++)
        half = half << 8 | bytes[i];
    return half;
}

static void write_record(unsigned char *bytes, const struct record *record)
{
    uint64_t half = record->operation;

    half = half << 4 | record->slot;
    half = half << 2 | record->width;
    half = half << SPARE_BITS | record->spare;
    half = half << 34 | (record->address & (LIMIT - 1));
    write_half(bytes, half);
    write_half(bytes + RECORD_BYTES / 2, record->value);
}

static struct record read_record(const unsigned char *bytes)
{
    uint64_t half = read_half(bytes);

    return (struct record){
        .operation = (unsigned)(half >> 60),
        .slot = (unsigned)(half >> 56 & 15),
        .width = (unsigned)(half >> 54 & 3),
        .spare = half >> 34 & ((1 << SPARE_BITS) - 1),
        .address = half & (LIMIT - 1),
        .value = read_half(bytes + RECORD_BYTES / 2)
    };
}

static void put_record(struct generator *g, struct record record)
{
    if (g->length + RECORD_BYTES > TAPE_ROOM)
        abort();
    write_record(g->tape + g->length, &record);
    g->length += RECORD_BYTES;
}

/* What the calls leave. */

static bool is_slot(unsigned slot)
{
    return slot >= SLOT_FIRST && slot <= SLOT_LAST;
}

static bool is_vacant(const struct generator *g, uint64_t first, uint64_t past)
{
    if (first < PAGES_PAST || past > MEMORY_END)
        return false;
    for (unsigned i = 0; i < SLOTS; i++)
        if (g->slots[i].live && first < g->slots[i].past
            && g->slots[i].first < past)
            return false;
    return true;
}

static bool is_exponent(uint64_t exponent)
{
    return exponent >= EXPONENT_MIN && exponent <= EXPONENT_MAX;
}

static void note_create(struct generator *g, unsigned slot, uint64_t base,
                        uint64_t exponent)
{
    uint64_t past;

    if (g->running != 0 || !is_slot(slot) || g->slots[slot].live
        || !is_exponent(exponent) || base >> exponent << exponent != base)
        return;
    past = base + (UINT64_C(1) << exponent);
    if (is_vacant(g, base, past))
        g->slots[slot] = (struct slot){true, false, base, past};
}

static void note_enter(struct generator *g, unsigned slot)
{
    if (g->running == 0 && g->slots[slot].live && !g->slots[slot].finished)
        g->running = slot;
}

static void note_leave(struct generator *g, bool finished)
{
    g->slots[g->running].finished = finished;
    g->running = 0;
}

static void note_destroy(struct generator *g, unsigned slot)
{
    if (g->running == 0)
        g->slots[slot].live = false;
}

static void note_store(struct generator *g, uint64_t address)
{
    if (address < MEMORY_END)
        g->places[g->stores++ % PLACES] = address;
}

/* Slots. */

/* A slot that is live or free, as wanted, if there is one. */
static unsigned slot_where(struct generator *g, bool live)
{
    unsigned count = SLOT_LAST - SLOT_FIRST + 1;
    unsigned start = (unsigned)below(g, count);

    for (unsigned i = 0; i < count; i++) {
        unsigned slot = SLOT_FIRST + (start + i) % count;

        if (g->slots[slot].live == live)
            return slot;
    }
    return SLOT_FIRST + start;
}

static unsigned any_slot(struct generator *g)
{
    static const unsigned wrong[] = {0, 1, 15};

    if (chance(g, 25))
        return ONE_OF(g, wrong);
    return chance(g, 50) ? slot_where(g, true) : slot_where(g, false);
}

/* Ranges. */

static uint64_t usual_exponent(struct generator *g)
{
    static const uint64_t exponents[] = {
        12, 12, 12, 12, 12, 12, 13, 13, 13, 13, 14, 14, 15
    };

    return ONE_OF(g, exponents);
}

/* Mostly refused; many of them look valid once cut to fewer bits. */
static uint64_t odd_exponent(struct generator *g)
{
    static const uint64_t exponents[] = {
        0, 3, 10, 11, 11, 11, 11, 16, 16, 17, 18, 29, 30, 30, 30, 31, 31, 31,
        31, 32, 33, 34, 63, 64, 76, 77, 0x10C, 0x1000C, 0x10000000C,
        0x800000000000000C, UINT64_MAX
    };

    return ONE_OF(g, exponents);
}

static uint64_t aligned_base(struct generator *g, uint64_t exponent)
{
    uint64_t count = MEMORY_END >> exponent;

    return count == 0 ? 0 : below(g, count) << exponent;
}

/* A base where the range is vacant, if a few tries find one. */
static uint64_t vacant_base(struct generator *g, uint64_t exponent)
{
    uint64_t size = UINT64_C(1) << exponent;
    uint64_t base = aligned_base(g, exponent);

    for (unsigned tries = 0; tries < 8; tries++) {
        if (is_vacant(g, base, base + size))
            return base;
        base = aligned_base(g, exponent);
    }
    return base;
}

/* A base whose range lies across or beyond an end, or in a page. */
static uint64_t far_base(struct generator *g)
{
    static const uint64_t bases[] = {
        0, 0, PAGE, PAGE, PAGES_PAST, 0xF000, 0xE000, 0xC000, 0x8000, 0x10000,
        0x10000, 0x11000, 0x12000, 0x14000, 0x18000, 0x20000, 0x40000000,
        0x80000000, 0xFFFFF000, 0x100000000, 0x100004000, 0x200000000,
        0x200008000, LIMIT - 0x1000, LIMIT - 0x2000, LIMIT - 0x4000,
        LIMIT - 0x40000000
    };

    return ONE_OF(g, bases);
}

/* A base that is no multiple of a size, or only of a smaller one. */
static uint64_t crooked_base(struct generator *g)
{
    static const uint64_t offsets[] = {
        1, 2, 4, 8, 0x10, 0x100, 0x400, 0x800, 0x800, 0xFFF, 0x1000, 0x1000,
        0x2000, 0x4000
    };
    uint64_t base = aligned_base(g, usual_exponent(g));

    return base + ONE_OF(g, offsets);
}

static uint64_t live_base(struct generator *g)
{
    return g->slots[slot_where(g, true)].first;
}

static uint64_t any_base(struct generator *g)
{
    if (chance(g, 30))
        return aligned_base(g, usual_exponent(g));
    if (chance(g, 30))
        return live_base(g);
    if (chance(g, 45))
        return crooked_base(g);
    return chance(g, 85) ? far_base(g) : below(g, LIMIT);
}

/* Addresses. */

static uint64_t page_edge(struct generator *g)
{
    static const uint64_t edges[] = {
        0, PAGE, PAGE, PAGES_PAST, PAGES_PAST, MEMORY_END, MEMORY_END
    };

    return ONE_OF(g, edges);
}

static uint64_t limit_edge(struct generator *g)
{
    static const uint64_t edges[] = {
        LIMIT, LIMIT, LIMIT, LIMIT / 2, LIMIT / 4, UINT64_C(1) << 31, 0x20000
    };

    return ONE_OF(g, edges);
}

/* The slot that runs, at times another live one. */
static unsigned near_slot(struct generator *g)
{
    if (g->running != 0 && chance(g, 75))
        return g->running;
    return slot_where(g, true);
}

static uint64_t range_edge(struct generator *g)
{
    unsigned slot = near_slot(g);

    return chance(g, 50) ? g->slots[slot].first : g->slots[slot].past;
}

static uint64_t any_edge(struct generator *g)
{
    if (chance(g, 65))
        return range_edge(g);
    return chance(g, 80) ? page_edge(g) : limit_edge(g);
}

/* An address such that the access stands at an edge or across it. */
static uint64_t edge_address(struct generator *g, uint64_t size)
{
    uint64_t edge = any_edge(g);
    uint64_t address = edge;

    if (chance(g, 30))
        address = edge - size;
    else if (chance(g, 20))
        address = edge - size / 2;
    else if (chance(g, 40))
        address = edge - 9 + below(g, 18);
    return address < LIMIT ? address : edge;
}

/* An address at a place that was stored to, or a little off it. */
static uint64_t stored_address(struct generator *g)
{
    uint64_t place = ONE_OF(g, g->places);

    if (chance(g, 70))
        return place;
    return place + 8 < MEMORY_END ? place + below(g, 8) : place;
}

static uint64_t inner_address(struct generator *g)
{
    const struct slot *slot = &g->slots[near_slot(g)];

    if (slot->first == slot->past)
        return below(g, MEMORY_END);
    return slot->first + below(g, slot->past - slot->first);
}

/* A usual address with a bit that a cut to fewer bits would lose. */
static uint64_t raised_address(struct generator *g)
{
    uint64_t address = inner_address(g);

    return address | UINT64_C(1) << (16 + below(g, 18));
}

static uint64_t any_address(struct generator *g, uint64_t size)
{
    if (chance(g, 45))
        return edge_address(g, size);
    if (chance(g, 50))
        return stored_address(g);
    if (chance(g, 50))
        return inner_address(g);
    if (chance(g, 70))
        return below(g, MEMORY_END);
    return chance(g, 70) ? raised_address(g) : below(g, LIMIT);
}

static uint64_t any_value(struct generator *g)
{
    static const uint64_t values[] = {
        0, 1, 0x80, 0xFF, 0x8000, 0x80000000, UINT32_MAX, 0x100000000,
        0x7FFFFFFFFFFFFFFF, 0x8000000000000000, UINT64_MAX,
        0x0102030405060708
    };

    return chance(g, 80) ? draw(g) : ONE_OF(g, values);
}

/* Calls. */

static void put_create(struct generator *g, unsigned slot, uint64_t base,
                       uint64_t exponent)
{
    put_record(g, (struct record){.operation = CREATE, .slot = slot,
                                  .address = base, .value = exponent});
    note_create(g, slot, base, exponent);
}

static void make_create(struct generator *g)
{
    uint64_t exponent = usual_exponent(g);
    uint64_t base = vacant_base(g, exponent);

    put_create(g, slot_where(g, false), base, exponent);
}

/* One that is likely to be refused, often for more than one reason. */
static void make_odd_create(struct generator *g)
{
    unsigned slot = chance(g, 70) ? slot_where(g, false) : any_slot(g);
    uint64_t exponent = chance(g, 60) ? usual_exponent(g) : odd_exponent(g);

    put_create(g, slot, any_base(g), exponent);
}

static void put_enter(struct generator *g, unsigned slot)
{
    put_record(g, (struct record){.operation = ENTER, .slot = slot});
    note_enter(g, slot);
}

static void make_enter(struct generator *g)
{
    put_enter(g, slot_where(g, true));
}

static void make_odd_enter(struct generator *g)
{
    put_enter(g, any_slot(g));
}

static void put_destroy(struct generator *g, unsigned slot)
{
    put_record(g, (struct record){.operation = DESTROY, .slot = slot});
    note_destroy(g, slot);
}

static void make_destroy(struct generator *g)
{
    put_destroy(g, slot_where(g, true));
}

static void make_odd_destroy(struct generator *g)
{
    put_destroy(g, any_slot(g));
}

static void make_pause(struct generator *g)
{
    put_record(g, (struct record){.operation = PAUSE});
    note_leave(g, false);
}

static void make_finish(struct generator *g)
{
    put_record(g, (struct record){.operation = FINISH, .value = any_value(g)});
    note_leave(g, true);
}

static void put_access(struct generator *g, unsigned operation,
                       uint64_t value)
{
    unsigned width = (unsigned)below(g, 4);
    uint64_t address = any_address(g, UINT64_C(1) << width);

    put_record(g, (struct record){.operation = operation, .width = width,
                                  .address = address, .value = value});
    if (operation == STORE)
        note_store(g, address);
}

static void make_load(struct generator *g)
{
    put_access(g, LOAD, 0);
}

static void make_fetch(struct generator *g)
{
    put_access(g, FETCH, 0);
}

static void make_store(struct generator *g)
{
    put_access(g, STORE, any_value(g));
}

static void make_register(struct generator *g)
{
    static const uint64_t numbers[] = {
        0, 0x39F, 0x3A0, 0x3A1, 0x3A3, 0x3A4, 0x3AF, 0x3B0, 0x3B2, 0x3BF,
        0x3C0, 0x1000003A0, LIMIT - 1
    };
    uint64_t number = ONE_OF(g, numbers);
    uint64_t value = any_value(g) & UINT32_MAX;

    put_record(g, (struct record){.operation = REGISTER, .address = number,
                                  .value = value});
}

static const struct choice os_calls[] = {
    {14, make_create},
    {9, make_odd_create},
    {17, make_enter},
    {4, make_odd_enter},
    {9, make_destroy},
    {3, make_odd_destroy},
    {2, make_pause},
    {2, make_finish},
    {19, make_load},
    {19, make_store},
    {9, make_fetch},
    {2, make_register},
};

static const struct choice enclave_calls[] = {
    {2, make_create},
    {2, make_odd_create},
    {2, make_enter},
    {2, make_odd_enter},
    {2, make_destroy},
    {2, make_odd_destroy},
    {13, make_pause},
    {7, make_finish},
    {26, make_load},
    {26, make_store},
    {14, make_fetch},
    {2, make_register},
};

static void make_call(struct generator *g)
{
    if (g->running == 0)
        MAKE_ONE(g, os_calls);
    else
        MAKE_ONE(g, enclave_calls);
}

/* Tapes. */

static size_t any_length(struct generator *g)
{
    uint64_t lot = below(g, 200);

    if (lot < 190)
        return (size_t)below(g, 61);
    if (lot < 198)
        return 100 + (size_t)below(g, 700);
    return lot == 198 ? RECORDS_MAX : RECORDS_MAX - 1;
}

/* Some tapes begin with a store or two and then a few enclaves. */
static void make_opening(struct generator *g)
{
    uint64_t count = below(g, 3);

    while (count-- > 0)
        make_store(g);
    count = below(g, 6);
    while (count-- > 0)
        make_create(g);
}

static void make_calls(struct generator *g, size_t count)
{
    if (count >= 10 && chance(g, 75))
        make_opening(g);
    while (g->length < count * RECORD_BYTES)
        make_call(g);
}

/* Damage: small faults put into a tape that is made already. */

static unsigned char *any_record(struct generator *g)
{
    if (g->length == 0)
        make_call(g);
    return g->tape + below(g, g->length / RECORD_BYTES) * RECORD_BYTES;
}

static void damage_longer(struct generator *g)
{
    uint64_t count = chance(g, 60) ? 1 : 1 + below(g, RECORD_BYTES - 1);

    while (count-- > 0 && g->length < TAPE_ROOM)
        g->tape[g->length++] = (unsigned char)(draw(g) & 0xFF);
}

static void damage_shorter(struct generator *g)
{
    uint64_t count = chance(g, 60) ? 1 : 1 + below(g, RECORD_BYTES - 1);

    any_record(g);
    g->length -= (size_t)count;
}

/* One bit of a field: its first, its last or any. */
static uint64_t any_bit(struct generator *g, unsigned first, unsigned last)
{
    if (chance(g, 25))
        return UINT64_C(1) << first;
    if (chance(g, 30))
        return UINT64_C(1) << last;
    return UINT64_C(1) << (first + below(g, last - first + 1));
}

static void set_spare(struct generator *g, struct record *record)
{
    record->spare |= any_bit(g, 0, SPARE_BITS - 1);
}

static void set_slot(struct generator *g, struct record *record)
{
    record->slot |= (unsigned)any_bit(g, 0, 3);
}

static void set_width(struct generator *g, struct record *record)
{
    record->width |= (unsigned)any_bit(g, 0, 1);
}

static void set_address(struct generator *g, struct record *record)
{
    record->address |= any_bit(g, 0, 33);
}

static void set_value(struct generator *g, struct record *record)
{
    record->value |= any_bit(g, 0, 63);
}

static void set_high_value(struct generator *g, struct record *record)
{
    record->value |= any_bit(g, 32, 63);
}

static void damage_spare(struct generator *g)
{
    unsigned char *bytes = any_record(g);
    struct record record = read_record(bytes);

    set_spare(g, &record);
    write_record(bytes, &record);
}

/* The fields that operations do not use, or not whole. */
static const struct flaw {
    unsigned operation;
    void (*set)(struct generator *g, struct record *record);
} flaws[] = {
    {CREATE, set_width},
    {ENTER, set_width},
    {ENTER, set_address},
    {ENTER, set_value},
    {PAUSE, set_slot},
    {PAUSE, set_width},
    {PAUSE, set_address},
    {PAUSE, set_value},
    {FINISH, set_slot},
    {FINISH, set_width},
    {FINISH, set_address},
    {DESTROY, set_width},
    {DESTROY, set_address},
    {DESTROY, set_value},
    {LOAD, set_slot},
    {LOAD, set_value},
    {STORE, set_slot},
    {FETCH, set_slot},
    {FETCH, set_value},
    {REGISTER, set_slot},
    {REGISTER, set_width},
    {REGISTER, set_high_value},
};

/* A record of the operation; without one, a bare one is put in the place of
   another. */
static unsigned char *record_of(struct generator *g, unsigned operation)
{
    unsigned char *place = any_record(g);
    struct record bare = {.operation = operation};

    for (size_t i = 0; i + RECORD_BYTES <= g->length; i += RECORD_BYTES)
        if (g->tape[i] >> 4 == operation)
            return g->tape + i;
    write_record(place, &bare);
    return place;
}

static void damage_field(struct generator *g, const struct flaw *flaw)
{
    unsigned char *bytes = record_of(g, flaw->operation);
    struct record record = read_record(bytes);

    flaw->set(g, &record);
    write_record(bytes, &record);
}

static void damage_any_field(struct generator *g)
{
    damage_field(g, &ONE_OF(g, flaws));
}

/* Gives a record an operation that there is none of, at times with more
   that is wrong. */
static void spoil(struct generator *g, unsigned char *bytes)
{
    static const unsigned operations[] = {0, 0, 10, 10, 11, 12, 13, 14, 15};
    struct record record = read_record(bytes);

    record.operation = ONE_OF(g, operations);
    if (chance(g, 40))
        set_spare(g, &record);
    write_record(bytes, &record);
}

static void damage_operation(struct generator *g)
{
    spoil(g, any_record(g));
}

static void make_full(struct generator *g)
{
    while (g->length + RECORD_BYTES <= TAPE_ROOM)
        make_call(g);
}

/* Lengthens the tape to about as long as a tape may be or too long. */
static void damage_length(struct generator *g)
{
    static const size_t lengths[] = {
        TAPE_MAX - 1, TAPE_MAX + 1, TAPE_MAX + 1, TAPE_ROOM, TAPE_ROOM
    };

    make_full(g);
    g->length = ONE_OF(g, lengths);
}

/* Lengthens the tape to the longest and spoils its last record. */
static void damage_last(struct generator *g)
{
    make_full(g);
    g->length = TAPE_MAX;
    spoil(g, g->tape + TAPE_MAX - RECORD_BYTES);
}

static const struct choice damages[] = {
    {4, damage_longer},
    {4, damage_shorter},
    {5, damage_spare},
    {3, damage_any_field},
    {6, damage_operation},
    {3, damage_length},
    {1, damage_last},
};

/* Every other lot takes the next flaw, so that each comes up often. */
static void damage(struct generator *g, uint64_t lot)
{
    if (lot % 2 == 0)
        damage_field(g, &flaws[lot / 2 % COUNT(flaws)]);
    else
        MAKE_ONE(g, damages);
    while (chance(g, 20) && g->length >= RECORD_BYTES)
        MAKE_ONE(g, damages);
}

/* One seed in eight gives a damaged tape. */
static void make_tape(struct generator *g, uint64_t seed)
{
    g->state = seed;
    make_calls(g, any_length(g));
    if (seed % 8 == 7)
        damage(g, seed / 8);
}

int main(int argc, char **argv)
{
    static struct generator g;
    uint64_t seed;

    if (argc != 2 || !parse_decimal(argv[1], &seed)) {
        fputs("usage: tapegen SEED\n", stderr);
        return 2;
    }
    make_tape(&g, seed);
    fwrite(g.tape, 1, g.length, stdout);
    if (fflush(stdout) != 0 || ferror(stdout)) {
        fputs("tapegen: cannot print the tape\n", stderr);
        return 1;
    }
    return 0;
}
