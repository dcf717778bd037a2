#include "machine.h"

#include <string.h>

#define PRIVILEGE_ENCLAVE 0
#define PRIVILEGE_OS 1
#define PRIVILEGE_MONITOR 3

/* The registers that hold the bytes and the words of the entries. */
#define BYTE_REGISTER 0x3A0
#define BYTES_PER_REGISTER 4
#define WORD_REGISTER 0x3B0

#define MEMORY_MIN 16384
#define MEMORY_MAX BANK_LIMIT
#define MEMORY_UNIT 4096

/* The monitor's page and the common page end here. */
#define PAGES_PAST 8192

#define ENTRY_MONITOR 0
#define ENTRY_COMMON 1
#define SLOT_FIRST 2
#define SLOT_LAST 14
#define ENTRY_OS 15

#define WORD_MONITOR 0x1FF
#define WORD_COMMON 0x5FF
#define WORD_OS 0xFFFFFFFF

/* The bytes of entries: a range that the entry denies, one that it grants,
   and one that all may read and run but nobody can change. */
#define BYTE_OFF 0
#define BYTE_DENY 0x18
#define BYTE_GRANT 0x1F
#define BYTE_COMMON 0x9D

#define EXPONENT_MIN 12
#define EXPONENT_MAX 30

#define OS_RUNS 0

/* Answers. */

static struct answer accepted(uint64_t value)
{
    return (struct answer){OUTCOME_OK, 0, value};
}

static struct answer refused(unsigned number)
{
    return (struct answer){OUTCOME_REFUSED, number, 0};
}

static struct answer protection_fault(unsigned cause)
{
    return (struct answer){OUTCOME_PROTECTION, cause, 0};
}

static struct answer memory_fault(unsigned cause)
{
    return (struct answer){OUTCOME_MEMORY, cause, 0};
}

/* The bank. */

static void set_word(struct machine *machine, unsigned entry, uint32_t word)
{
    uint32_t held;

    bank_write(&machine->bank, PRIVILEGE_MONITOR, WORD_REGISTER + entry, word,
               &held);
}

/* Writes one byte of a register and leaves the others as they are. */
static void set_byte(struct machine *machine, unsigned entry, uint8_t byte)
{
    uint64_t number = BYTE_REGISTER + entry / BYTES_PER_REGISTER;
    unsigned shift = entry % BYTES_PER_REGISTER * 8;
    uint32_t held = 0;

    bank_read(&machine->bank, PRIVILEGE_MONITOR, number, &held);
    held &= ~(UINT32_C(0xFF) << shift);
    held |= (uint32_t)byte << shift;
    bank_write(&machine->bank, PRIVILEGE_MONITOR, number, held, &held);
}

/* The word goes first, for the byte may lock it. */
static void set_entry(struct machine *machine, unsigned entry, uint8_t byte,
                      uint32_t word)
{
    set_word(machine, entry, word);
    set_byte(machine, entry, byte);
}

static bool suits(uint64_t length)
{
    return length >= MEMORY_MIN && length <= MEMORY_MAX
        && length % MEMORY_UNIT == 0;
}

void machine_start(struct machine *machine, uint8_t *memory, uint64_t length)
{
    memset(machine, 0, sizeof *machine);
    machine->memory = memory;
    machine->length = length;
    machine->started = suits(length);
    machine->running = OS_RUNS;
    bank_reset(&machine->bank);
    set_entry(machine, ENTRY_MONITOR, BYTE_DENY, WORD_MONITOR);
    set_entry(machine, ENTRY_COMMON, BYTE_COMMON, WORD_COMMON);
    set_entry(machine, ENTRY_OS, BYTE_GRANT, WORD_OS);
}

/* Ranges. */

static bool is_apart(struct range one, struct range other)
{
    return one.past <= other.first || other.past <= one.first;
}

static bool is_live(const struct machine *machine, unsigned slot)
{
    return machine->slots[slot].state != STATE_FREE;
}

/* Whether the range is clear of both pages and of every live range. */
static bool is_clear(const struct machine *machine, struct range range)
{
    if (range.first < PAGES_PAST)
        return false;
    for (unsigned i = SLOT_FIRST; i <= SLOT_LAST; i++)
        if (is_live(machine, i) && !is_apart(machine->slots[i].range, range))
            return false;
    return true;
}

/* Questions. Each gives the number of the first that is answered no, or
   REFUSED_NOT. */

/* Those of all calls that name a slot. */
static unsigned refuse_slot(const struct machine *machine, uint64_t slot)
{
    if (!machine->started)
        return REFUSED_MACHINE;
    if (slot < SLOT_FIRST || slot > SLOT_LAST)
        return REFUSED_SLOT;
    if (machine->running != OS_RUNS)
        return REFUSED_ENCLAVE;
    return REFUSED_NOT;
}

static unsigned refuse_live_slot(const struct machine *machine, uint64_t slot)
{
    unsigned number = refuse_slot(machine, slot);

    if (number != REFUSED_NOT)
        return number;
    if (!is_live(machine, (unsigned)slot))
        return REFUSED_FREE;
    return REFUSED_NOT;
}

static unsigned refuse_free_slot(const struct machine *machine, uint64_t slot)
{
    unsigned number = refuse_slot(machine, slot);

    if (number != REFUSED_NOT)
        return number;
    if (is_live(machine, (unsigned)slot))
        return REFUSED_LIVE;
    return REFUSED_NOT;
}

static unsigned refuse_range(const struct machine *machine, uint64_t base,
                             uint64_t exponent)
{
    uint64_t size;

    if (exponent < EXPONENT_MIN || exponent > EXPONENT_MAX)
        return REFUSED_EXPONENT;
    size = UINT64_C(1) << exponent;
    if (base % size != 0)
        return REFUSED_ALIGNMENT;
    if (size > machine->length || base > machine->length - size)
        return REFUSED_END;
    if (!is_clear(machine, (struct range){base, base + size}))
        return REFUSED_OVERLAP;
    return REFUSED_NOT;
}

/* Those of the calls that only an enclave makes. */
static unsigned refuse_leaving(const struct machine *machine)
{
    if (!machine->started)
        return REFUSED_MACHINE;
    if (machine->running == OS_RUNS)
        return REFUSED_OS;
    return REFUSED_NOT;
}

/* Calls. */

static void make_slot(struct machine *machine, unsigned slot, uint64_t base,
                      uint64_t exponent)
{
    uint64_t past = base + (UINT64_C(1) << exponent);
    uint32_t word = 0;

    bank_range_word(base, exponent, &word);
    machine->slots[slot].state = STATE_FRESH;
    machine->slots[slot].range = (struct range){base, past};
    set_entry(machine, slot, BYTE_DENY, word);
}

struct answer machine_create(struct machine *machine, uint64_t slot,
                             uint64_t base, uint64_t exponent)
{
    unsigned number = refuse_free_slot(machine, slot);

    if (number == REFUSED_NOT)
        number = refuse_range(machine, base, exponent);
    if (number != REFUSED_NOT)
        return refused(number);
    make_slot(machine, (unsigned)slot, base, exponent);
    return accepted(0);
}

struct answer machine_enter(struct machine *machine, uint64_t slot)
{
    unsigned number = refuse_live_slot(machine, slot);

    if (number != REFUSED_NOT)
        return refused(number);
    if (machine->slots[slot].state == STATE_FINISHED)
        return refused(REFUSED_FINISHED);
    machine->slots[slot].state = STATE_RUNNING;
    machine->running = (unsigned)slot;
    set_byte(machine, machine->running, BYTE_GRANT);
    set_byte(machine, ENTRY_OS, BYTE_OFF);
    return accepted(0);
}

/* Puts the running slot into a state and the OS in its place. */
static void leave(struct machine *machine, enum state state)
{
    machine->slots[machine->running].state = state;
    set_byte(machine, machine->running, BYTE_DENY);
    set_byte(machine, ENTRY_OS, BYTE_GRANT);
    machine->running = OS_RUNS;
}

struct answer machine_pause(struct machine *machine)
{
    unsigned number = refuse_leaving(machine);

    if (number != REFUSED_NOT)
        return refused(number);
    leave(machine, STATE_STOPPED);
    return accepted(0);
}

struct answer machine_finish(struct machine *machine, uint64_t word)
{
    unsigned number = refuse_leaving(machine);

    if (number != REFUSED_NOT)
        return refused(number);
    leave(machine, STATE_FINISHED);
    return accepted(word);
}

static void clear_slot(struct machine *machine, unsigned slot)
{
    struct range range = machine->slots[slot].range;

    memset(machine->memory + range.first, 0, range.past - range.first);
    machine->slots[slot].state = STATE_FREE;
    machine->slots[slot].range = (struct range){0, 0};
    set_entry(machine, slot, BYTE_OFF, 0);
}

struct answer machine_destroy(struct machine *machine, uint64_t slot)
{
    unsigned number = refuse_live_slot(machine, slot);

    if (number != REFUSED_NOT)
        return refused(number);
    clear_slot(machine, (unsigned)slot);
    return accepted(0);
}

/* The party that is running. */

static uint64_t privilege_of(const struct machine *machine)
{
    return machine->running == OS_RUNS ? PRIVILEGE_OS : PRIVILEGE_ENCLAVE;
}

static unsigned cause_of(uint64_t kind)
{
    switch (kind) {
    case KIND_FETCH:
        return 1;
    case KIND_LOAD:
        return 5;
    default:
        return 7;
    }
}

static uint64_t get_bytes(const uint8_t *bytes, uint64_t count)
{
    uint64_t value = 0;

    while (count-- > 0)
        value = value << 8 | bytes[count];
    return value;
}

static void put_bytes(uint8_t *bytes, uint64_t count, uint64_t value)
{
    for (uint64_t i = 0; i < count; i++)
        bytes[i] = (uint8_t)(value >> 8 * i);
}

/* An access that the bank allows. */
static struct answer reach(struct machine *machine, uint64_t kind,
                           uint64_t address, uint64_t size, uint64_t value)
{
    if (address + size > machine->length)
        return memory_fault(cause_of(kind));
    if (kind != KIND_STORE)
        return accepted(get_bytes(machine->memory + address, size));
    put_bytes(machine->memory + address, size, value);
    return accepted(0);
}

struct answer machine_access(struct machine *machine, uint64_t kind,
                             uint64_t address, uint64_t size, uint64_t value)
{
    struct verdict verdict;
    enum refusal refusal;

    if (!machine->started)
        return refused(REFUSED_MACHINE);
    refusal = bank_check(&machine->bank, privilege_of(machine), kind, address,
                         size, &verdict);
    if (refusal != REFUSED_NOT)
        return refused(refusal);
    if (!verdict.allowed)
        return protection_fault(verdict.cause);
    return reach(machine, kind, address, size, value);
}

/* The bank refuses every privilege that a party runs at. */
struct answer machine_register(struct machine *machine, uint64_t number,
                               uint32_t word)
{
    uint32_t held = 0;
    enum refusal refusal;

    if (!machine->started)
        return refused(REFUSED_MACHINE);
    refusal = bank_write(&machine->bank, privilege_of(machine), number, word,
                         &held);
    if (refusal != REFUSED_NOT)
        return refused(refusal);
    return accepted(held);
}
