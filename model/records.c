#include "records.h"

#include "machine.h"

#include <inttypes.h>
#include <string.h>

#define MEMORY_BYTES 65536

/* The fields of a record's first half; the other bits of it are spare. */
#define OPERATION_SHIFT 60
#define SLOT_SHIFT 56
#define WIDTH_SHIFT 54
#define OPERATION_BITS (UINT64_C(15) << OPERATION_SHIFT)
#define SLOT_BITS (UINT64_C(15) << SLOT_SHIFT)
#define WIDTH_BITS (UINT64_C(3) << WIDTH_SHIFT)
#define ADDRESS_BITS ((UINT64_C(1) << 34) - 1)

/* What the second half, the value, may hold. */
#define NO_BITS 0
#define WORD_BITS UINT64_C(0xFFFFFFFF)
#define VALUE_BITS UINT64_MAX

/* Why a whole tape is turned down. */
enum damage {
    DAMAGE_NONE = 0,
    DAMAGE_PART = 38,        /* it ends within a record */
    DAMAGE_OPERATION = 39,   /* no such operation */
    DAMAGE_FIELD = 40,       /* a bit is set that must not be */
    DAMAGE_LENGTH = 41       /* it has too many bytes */
};

struct record {
    uint64_t first;
    uint64_t value;
};

typedef struct answer runner(struct machine *machine, struct record record);

struct operation {
    runner *run;
    uint64_t first;   /* the bits that a record may set, */
    uint64_t value;   /* besides its operation */
};

/* Fields. */

static unsigned operation_of(struct record record)
{
    return (unsigned)(record.first >> OPERATION_SHIFT);
}

static uint64_t slot_of(struct record record)
{
    return (record.first & SLOT_BITS) >> SLOT_SHIFT;
}

static uint64_t size_of(struct record record)
{
    return UINT64_C(1) << ((record.first & WIDTH_BITS) >> WIDTH_SHIFT);
}

static uint64_t address_of(struct record record)
{
    return record.first & ADDRESS_BITS;
}

/* Operations. */

static struct answer run_create(struct machine *machine, struct record record)
{
    return machine_create(machine, slot_of(record), address_of(record),
                          record.value);
}

static struct answer run_enter(struct machine *machine, struct record record)
{
    return machine_enter(machine, slot_of(record));
}

static struct answer run_pause(struct machine *machine, struct record record)
{
    (void)record;
    return machine_pause(machine);
}

static struct answer run_finish(struct machine *machine, struct record record)
{
    return machine_finish(machine, record.value);
}

static struct answer run_destroy(struct machine *machine, struct record record)
{
    return machine_destroy(machine, slot_of(record));
}

static struct answer run_load(struct machine *machine, struct record record)
{
    return machine_access(machine, KIND_LOAD, address_of(record),
                          size_of(record), 0);
}

static struct answer run_store(struct machine *machine, struct record record)
{
    return machine_access(machine, KIND_STORE, address_of(record),
                          size_of(record), record.value);
}

static struct answer run_fetch(struct machine *machine, struct record record)
{
    return machine_access(machine, KIND_FETCH, address_of(record),
                          size_of(record), 0);
}

static struct answer run_register(struct machine *machine,
                                  struct record record)
{
    return machine_register(machine, address_of(record),
                            (uint32_t)record.value);
}

/* Each at the place of its number. */
static const struct operation operations[] = {
    {NULL, 0, 0},
    {run_create, SLOT_BITS | ADDRESS_BITS, VALUE_BITS},
    {run_enter, SLOT_BITS, NO_BITS},
    {run_pause, NO_BITS, NO_BITS},
    {run_finish, NO_BITS, VALUE_BITS},
    {run_destroy, SLOT_BITS, NO_BITS},
    {run_load, WIDTH_BITS | ADDRESS_BITS, NO_BITS},
    {run_store, WIDTH_BITS | ADDRESS_BITS, VALUE_BITS},
    {run_fetch, WIDTH_BITS | ADDRESS_BITS, NO_BITS},
    {run_register, ADDRESS_BITS, WORD_BITS},
};

/* NULL when there is no such operation. */
static const struct operation *find_operation(struct record record)
{
    unsigned number = operation_of(record);

    if (number == 0 || number >= sizeof operations / sizeof *operations)
        return NULL;
    return &operations[number];
}

/* Reading. */

static uint64_t read_half(const unsigned char *bytes)
{
    uint64_t half = 0;

    for (size_t i = 0; i < RECORD_BYTES / 2; i++)
        half = half << 8 | bytes[i];
    return half;
}

static struct record read_record(struct tape tape, size_t index)
{
    const unsigned char *bytes = tape.bytes + index * RECORD_BYTES;

    return (struct record){read_half(bytes),
                           read_half(bytes + RECORD_BYTES / 2)};
}

static size_t count_records(struct tape tape)
{
    return tape.length / RECORD_BYTES;
}

static enum damage record_damage(struct record record)
{
    const struct operation *operation = find_operation(record);

    if (operation == NULL)
        return DAMAGE_OPERATION;
    if ((record.first & ~(OPERATION_BITS | operation->first)) != 0)
        return DAMAGE_FIELD;
    if ((record.value & ~operation->value) != 0)
        return DAMAGE_FIELD;
    return DAMAGE_NONE;
}

/* Gives in *place how many records come before the damage. */
static enum damage tape_damage(struct tape tape, size_t *place)
{
    size_t count = count_records(tape);

    *place = RECORDS_MAX;
    if (tape.length > TAPE_MAX)
        return DAMAGE_LENGTH;
    *place = count;
    if (tape.length % RECORD_BYTES != 0)
        return DAMAGE_PART;
    for (*place = 0; *place < count; ++*place) {
        enum damage damage = record_damage(read_record(tape, *place));

        if (damage != DAMAGE_NONE)
            return damage;
    }
    return DAMAGE_NONE;
}

/* Printing. */

static void print_code(FILE *out, struct answer answer)
{
    switch (answer.outcome) {
    case OUTCOME_OK:
        fprintf(out, "ok");
        break;
    case OUTCOME_REFUSED:
        fprintf(out, "r%u", answer.number);
        break;
    case OUTCOME_PROTECTION:
        fprintf(out, "p%u", answer.number);
        break;
    case OUTCOME_MEMORY:
        fprintf(out, "m%u", answer.number);
        break;
    }
}

static void print_answer(FILE *out, size_t index, struct answer answer)
{
    fprintf(out, "%zu ", index);
    print_code(out, answer);
    fprintf(out, " %016" PRIx64 "\n", answer.value);
}

static void run(struct tape tape, FILE *out)
{
    static uint8_t memory[MEMORY_BYTES];
    size_t count = count_records(tape);
    struct machine machine;

    memset(memory, 0, sizeof memory);
    machine_start(&machine, memory, sizeof memory);
    for (size_t index = 0; index < count; index++) {
        struct record record = read_record(tape, index);

        print_answer(out, index,
                     find_operation(record)->run(&machine, record));
    }
}

void tape_answer(struct tape tape, FILE *out)
{
    size_t place;
    enum damage damage = tape_damage(tape, &place);

    if (damage == DAMAGE_NONE)
        run(tape, out);
    else
        fprintf(out, "tape %d %zu\n", (int)damage, place);
}
