/* A machine with memory, an OS and enclaves, kept apart by a bank of
   protection entries. */

#ifndef MACHINE_H
#define MACHINE_H

#include "bank.h"

/* Why a machine turns a call down, besides the reasons of the bank. */
enum machine_refusal {
    REFUSED_MACHINE = 27,    /* the machine is not started */
    REFUSED_SLOT = 28,       /* no such slot */
    REFUSED_ENCLAVE = 29,    /* an enclave is running */
    REFUSED_LIVE = 30,       /* the slot is live */
    REFUSED_END = 33,        /* the range runs past the end of the memory */
    REFUSED_OVERLAP = 34,    /* the range meets a page or a live range */
    REFUSED_FREE = 35,       /* the slot is free */
    REFUSED_FINISHED = 36,   /* the enclave has finished */
    REFUSED_OS = 37          /* the OS is running */
};

enum state {
    STATE_FREE,
    STATE_FRESH,
    STATE_RUNNING,
    STATE_STOPPED,
    STATE_FINISHED
};

/* Every state but free makes a slot live and gives it a range. */
struct slot {
    enum state state;
    struct range range;
};

struct machine {
    uint8_t *memory;
    uint64_t length;                   /* of the memory, in bytes */
    bool started;
    struct bank bank;
    struct slot slots[BANK_ENTRIES];   /* each at the place of its entry */
    unsigned running;                  /* the running slot; 0 for the OS */
};

enum outcome {
    OUTCOME_OK,
    OUTCOME_REFUSED,      /* the number is the reason */
    OUTCOME_PROTECTION,   /* the number is the cause of the bank's fault */
    OUTCOME_MEMORY        /* the number is the cause of the memory's fault */
};

struct answer {
    enum outcome outcome;
    unsigned number;
    uint64_t value;   /* zero where none is answered */
};

/* Starts a machine over a memory whose bytes it leaves as they are. With a
   length that does not suit, the machine stays unstarted. */
void machine_start(struct machine *machine, uint8_t *memory, uint64_t length);

struct answer machine_create(struct machine *machine, uint64_t slot,
                             uint64_t base, uint64_t exponent);

struct answer machine_enter(struct machine *machine, uint64_t slot);

struct answer machine_pause(struct machine *machine);

/* Answers the word. */
struct answer machine_finish(struct machine *machine, uint64_t word);

struct answer machine_destroy(struct machine *machine, uint64_t slot);

/* Loads, fetches or stores as the party that is running. The first byte is
   the lowest of the value. */
struct answer machine_access(struct machine *machine, uint64_t kind,
                             uint64_t address, uint64_t size, uint64_t value);

/* Tries to write a register as the party that is running. */
struct answer machine_register(struct machine *machine, uint64_t number,
                               uint32_t word);

#endif
