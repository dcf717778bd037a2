/* Runs workloads over the model's bank, machine and tape, so that their cost
   can be measured. For each it prints its name, how many rounds it ran, and a
   checksum of all answers. */

#define _POSIX_C_SOURCE 200809L

#include "decimal.h"
#include "machine.h"
#include "records.h"

#include <inttypes.h>
#include <stdio.h>
#include <stdlib.h>
#include <string.h>

#define PRIVILEGE_OS 1
#define PRIVILEGE_MACHINE 3

/* The machine's memory, but for destroys. */
#define MEMORY_BYTES 131072

/* The live slots lie in pages one after another. */
#define SLOTS 13
#define SLOT_FIRST 2
#define PAGE_EXPONENT 12
#define PAGE_BYTES (UINT64_C(1) << PAGE_EXPONENT)

#define OPERATION_LOAD 6
#define OPERATION_STORE 7

#define MARK UINT64_C(0x0123456789ABCDEF)

/* The generator of draws, and the checksum so far. */
struct tally {
    uint64_t draws;
    uint64_t sum;
};

struct access {
    uint64_t kind;
    uint64_t address;
    uint64_t width;   /* it has 2^width bytes */
    uint64_t value;
};

/* Drawing and summing. */

static struct tally new_tally(void)
{
    return (struct tally){UINT64_C(0x9E3779B97F4A7C15),
                          UINT64_C(0xCBF29CE484222325)};
}

static struct access draw(struct tally *tally)
{
    uint64_t bits = tally->draws;

    bits ^= bits << 13;
    bits ^= bits >> 7;
    bits ^= bits << 17;
    tally->draws = bits;
    return (struct access){.kind = bits >> 19 & 1 ? KIND_STORE : KIND_LOAD,
                           .address = bits & 0x1FFFF,
                           .width = bits >> 17 & 3,
                           .value = bits << 32 | bits >> 32};
}

static uint64_t size_of(struct access access)
{
    return UINT64_C(1) << access.width;
}

static void add(struct tally *tally, uint64_t word)
{
    tally->sum = (tally->sum ^ word) * UINT64_C(0x100000001B3);
}

static void add_answer(struct tally *tally, struct answer answer)
{
    add(tally, answer.outcome);
    add(tally, answer.outcome == OUTCOME_OK ? answer.value : answer.number);
}

/* Workloads. Each runs some rounds and gives the checksum. Its size is the
   records of a tape, or the exponent of a range. */

static uint64_t run_draws(uint64_t size, uint64_t rounds)
{
    struct tally tally = new_tally();

    (void)size;
    while (rounds-- > 0) {
        struct access access = draw(&tally);

        add(&tally, access.kind ^ size_of(access));
        add(&tally, access.address ^ access.value);
    }
    return tally.sum;
}

static uint64_t slot_base(unsigned slot)
{
    return PAGE_BYTES * slot;
}

static void set_register(struct bank *bank, uint64_t number, uint32_t word)
{
    uint32_t held;

    bank_write(bank, PRIVILEGE_MACHINE, number, word, &held);
}

/* Both pages, a shut range for every slot, and the OS. */
static void fill_bank(struct bank *bank)
{
    bank_reset(bank);
    set_register(bank, 0x3B0, 0x1FF);
    set_register(bank, 0x3B1, 0x5FF);
    for (unsigned slot = SLOT_FIRST; slot < SLOT_FIRST + SLOTS; slot++) {
        uint32_t word = 0;

        bank_range_word(slot_base(slot), PAGE_EXPONENT, &word);
        set_register(bank, 0x3B0 + slot, word);
    }
    set_register(bank, 0x3BF, 0xFFFFFFFF);
    set_register(bank, 0x3A0, 0x18189D18);
    set_register(bank, 0x3A1, 0x18181818);
    set_register(bank, 0x3A2, 0x18181818);
    set_register(bank, 0x3A3, 0x1F181818);
}

static uint64_t verdict_number(const struct bank *bank, struct access access)
{
    struct verdict verdict;
    enum refusal refusal = bank_check(bank, PRIVILEGE_OS, access.kind,
                                      access.address, size_of(access),
                                      &verdict);

    if (refusal != REFUSED_NOT)
        return 0x10000 | refusal;
    return (uint64_t)(verdict.entry + 1) << 8 | verdict.cause;
}

static uint64_t run_verdicts(uint64_t size, uint64_t rounds)
{
    struct tally tally = new_tally();
    struct bank bank;

    (void)size;
    fill_bank(&bank);
    while (rounds-- > 0)
        add(&tally, verdict_number(&bank, draw(&tally)));
    return tally.sum;
}

static uint64_t run_accesses(uint64_t size, uint64_t rounds)
{
    static uint8_t memory[MEMORY_BYTES];
    struct tally tally = new_tally();
    struct machine machine;

    (void)size;
    memset(memory, 0, sizeof memory);
    machine_start(&machine, memory, sizeof memory);
    for (unsigned slot = SLOT_FIRST; slot < SLOT_FIRST + SLOTS; slot++)
        add_answer(&tally, machine_create(&machine, slot, slot_base(slot),
                                          PAGE_EXPONENT));
    while (rounds-- > 0) {
        struct access access = draw(&tally);

        add_answer(&tally, machine_access(&machine, access.kind,
                                          access.address, size_of(access),
                                          access.value));
    }
    return tally.sum;
}

static void write_half(unsigned char *bytes, uint64_t half)
{
    for (unsigned i = 0; i < RECORD_BYTES / 2; i++)
        bytes[i] = (unsigned char)(half >> (56 - 8 * i));
}

/* The address is cut to the length of the memory that tapes run on. */
static void write_record(unsigned char *bytes, struct access access)
{
    bool load = access.kind == KIND_LOAD;
    uint64_t operation = load ? OPERATION_LOAD : OPERATION_STORE;

    write_half(bytes, operation << 60 | access.width << 54
                   | (access.address & 0xFFFF));
    write_half(bytes + RECORD_BYTES / 2, load ? 0 : access.value);
}

/* A text in memory; its bytes are given up by free. */
struct text {
    char *bytes;
    size_t length;
};

static void fail(const char *what)
{
    fprintf(stderr, "bench: %s\n", what);
    exit(1);
}

static struct text run_tape(struct tape tape)
{
    struct text text;
    FILE *out = open_memstream(&text.bytes, &text.length);

    if (out == NULL)
        fail("no memory");
    tape_answer(tape, out);
    if (fclose(out) != 0)
        fail("no memory");
    return text;
}

/* The lengths of all texts count, and the bytes of the last. */
static uint64_t run_tapes(uint64_t size, uint64_t rounds)
{
    static unsigned char bytes[TAPE_MAX];
    struct tape tape = {bytes, size * RECORD_BYTES};
    struct tally tally = new_tally();
    struct text text = {NULL, 0};

    for (uint64_t i = 0; i < size; i++)
        write_record(bytes + i * RECORD_BYTES, draw(&tally));
    while (rounds-- > 0) {
        free(text.bytes);
        text = run_tape(tape);
        add(&tally, text.length);
    }
    for (size_t i = 0; i < text.length; i++)
        add(&tally, (unsigned char)text.bytes[i]);
    free(text.bytes);
    return tally.sum;
}

/* A slot over the upper half of a memory. */
static uint64_t run_destroys(uint64_t size, uint64_t rounds)
{
    uint64_t base = UINT64_C(1) << size;
    uint64_t last = 2 * base - 8;
    struct tally tally = new_tally();
    struct machine machine;
    uint8_t *memory = malloc(2 * base);

    if (memory == NULL)
        fail("no memory");
    memset(memory, 0, 2 * base);
    machine_start(&machine, memory, 2 * base);
    while (rounds-- > 0) {
        add_answer(&tally, machine_access(&machine, KIND_STORE, base, 8, MARK));
        add_answer(&tally, machine_access(&machine, KIND_STORE, last, 8, MARK));
        add_answer(&tally, machine_create(&machine, SLOT_FIRST, base, size));
        add_answer(&tally, machine_destroy(&machine, SLOT_FIRST));
        add_answer(&tally, machine_access(&machine, KIND_LOAD, base, 8, 0));
        add_answer(&tally, machine_access(&machine, KIND_LOAD, last, 8, 0));
    }
    free(memory);
    return tally.sum;
}

/* The model has one layout of memory, which stands for all four. */
static const struct workload {
    const char *name;
    uint64_t (*run)(uint64_t size, uint64_t rounds);
    uint64_t size;
    uint64_t few;   /* rounds of a short run */
} workloads[] = {
    {"draws", run_draws, 0, 1000},
    {"verdicts", run_verdicts, 0, 1000},
    {"bytes", run_accesses, 0, 1000},
    {"words", run_accesses, 0, 1000},
    {"pair", run_accesses, 0, 1000},
    {"lent", run_accesses, 0, 1000},
    {"half-tape", run_tapes, 2048, 1},
    {"tape", run_tapes, 4096, 1},
    {"destroy-half", run_destroys, 23, 1},
    {"destroy", run_destroys, 24, 1},
};

#define WORKLOADS (sizeof workloads / sizeof *workloads)

static void show(const struct workload *workload, uint64_t rounds)
{
    uint64_t sum = workload->run(workload->size, rounds);

    printf("%s %" PRIu64 " %016" PRIx64 "\n", workload->name, rounds, sum);
}

static void show_short_run(void)
{
    for (size_t i = 0; i < WORKLOADS; i++)
        show(&workloads[i], workloads[i].few);
}

static const struct workload *find_workload(const char *name)
{
    for (size_t i = 0; i < WORKLOADS; i++)
        if (strcmp(workloads[i].name, name) == 0)
            return &workloads[i];
    return NULL;
}

static bool show_one(const char *name, const char *text)
{
    const struct workload *workload = find_workload(name);
    uint64_t rounds;

    if (workload == NULL || !parse_decimal(text, &rounds))
        return false;
    show(workload, rounds);
    return true;
}

int main(int argc, char **argv)
{
    if (argc == 1) {
        show_short_run();
    } else if (argc != 3 || !show_one(argv[1], argv[2])) {
        fputs("usage: bench [WORKLOAD ROUNDS]\n", stderr);
        return 2;
    }
    if (fflush(stdout) != 0 || ferror(stdout))
        fail("cannot print the checksums");
    return 0;
}
