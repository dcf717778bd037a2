/* A bank of sixteen memory protection entries, as plain C. */

#ifndef BANK_H
#define BANK_H

#include <stdbool.h>
#include <stdint.h>

#define BANK_ENTRIES 16

/* The byte after the last one that an access or a range may hold. */
#define BANK_LIMIT (UINT64_C(1) << 34)

/* Why a question or a write is turned down. */
enum refusal {
    REFUSED_NOT = 0,
    REFUSED_PRIVILEGE = 21,   /* no such privilege */
    REFUSED_RIGHT = 22,       /* only privilege 3 reaches the registers */
    REFUSED_REGISTER = 23,    /* no such register */
    REFUSED_KIND = 24,        /* no such kind of access */
    REFUSED_SIZE = 25,        /* no such size of access */
    REFUSED_LIMIT = 26,       /* runs past BANK_LIMIT */
    REFUSED_EXPONENT = 31,    /* no range has this size */
    REFUSED_ALIGNMENT = 32    /* the base is no multiple of the size */
};

enum kind {
    KIND_FETCH = 0,
    KIND_LOAD = 1,
    KIND_STORE = 2
};

struct bank {
    uint8_t config[BANK_ENTRIES];
    uint32_t word[BANK_ENTRIES];
};

/* The bytes from first up to, not including, past. */
struct range {
    uint64_t first;
    uint64_t past;
};

struct verdict {
    bool allowed;
    unsigned cause;   /* of the fault; 0 when allowed */
    int entry;        /* the entry that decided; -1 for none */
};

/* Sets every byte and word to zero and so opens every lock. */
void bank_reset(struct bank *bank);

/* Gives in *held what the register holds. */
enum refusal bank_read(const struct bank *bank, uint64_t privilege,
                       uint64_t number, uint32_t *held);

/* Writes the register, as far as locks let it, and gives in *held what it
   holds afterwards. */
enum refusal bank_write(struct bank *bank, uint64_t privilege,
                        uint64_t number, uint32_t word, uint32_t *held);

/* Gives the range of an entry (below BANK_ENTRIES); false when it holds no
   byte. */
bool bank_range(const struct bank *bank, unsigned entry, struct range *range);

/* Gives the address word of the NAPOT range of 2^exponent bytes at base. */
enum refusal bank_range_word(uint64_t base, uint64_t exponent, uint32_t *word);

/* Judges an access to size bytes from address. */
enum refusal bank_check(const struct bank *bank, uint64_t privilege,
                        uint64_t kind, uint64_t address, uint64_t size,
                        struct verdict *verdict);

#endif
