#include "bank.h"

#include <string.h>

#define PRIVILEGE_MACHINE 3

#define CONFIG_BASE 0x3A0
#define CONFIG_REGISTERS 4
#define BYTES_PER_REGISTER 4
#define WORD_BASE 0x3B0

/* The fields of a configuration byte. */
#define BIT_R 0x01
#define BIT_W 0x02
#define BIT_X 0x04
#define BIT_L 0x80
#define BITS_RESERVED 0x60
#define MODE_SHIFT 3
#define MODE_MASK 3

enum mode {
    MODE_OFF = 0,
    MODE_TOR = 1,
    MODE_NA4 = 2,
    MODE_NAPOT = 3
};

/* The smallest and largest NAPOT range, as powers of two. */
#define EXPONENT_MIN 3
#define EXPONENT_MAX 34

void bank_reset(struct bank *bank)
{
    memset(bank, 0, sizeof *bank);
}

static enum mode mode_of(const struct bank *bank, unsigned entry)
{
    return (enum mode)(bank->config[entry] >> MODE_SHIFT & MODE_MASK);
}

static bool is_locked(const struct bank *bank, unsigned entry)
{
    return (bank->config[entry] & BIT_L) != 0;
}

/* A locked TOR entry holds the word below it too: its range begins there. */
static bool is_word_locked(const struct bank *bank, unsigned entry)
{
    unsigned next = entry + 1;

    if (is_locked(bank, entry))
        return true;
    return next < BANK_ENTRIES && is_locked(bank, next)
        && mode_of(bank, next) == MODE_TOR;
}

/* What an open entry stores of a written byte. */
static uint8_t legal_byte(uint8_t byte)
{
    byte &= (uint8_t)~BITS_RESERVED;
    if (!(byte & BIT_R))
        byte &= (uint8_t)~BIT_W;
    return byte;
}

static bool is_privilege(uint64_t privilege)
{
    return privilege == 0 || privilege == 1 || privilege == PRIVILEGE_MACHINE;
}

static bool is_config_register(uint64_t number)
{
    return number >= CONFIG_BASE && number < CONFIG_BASE + CONFIG_REGISTERS;
}

static bool is_word_register(uint64_t number)
{
    return number >= WORD_BASE && number < WORD_BASE + BANK_ENTRIES;
}

static enum refusal refuse_register(uint64_t privilege, uint64_t number)
{
    if (!is_privilege(privilege))
        return REFUSED_PRIVILEGE;
    if (privilege != PRIVILEGE_MACHINE)
        return REFUSED_RIGHT;
    if (!is_config_register(number) && !is_word_register(number))
        return REFUSED_REGISTER;
    return REFUSED_NOT;
}

/* The entry whose byte is lowest in a configuration register. */
static unsigned lowest_entry(uint64_t number)
{
    return (unsigned)(number - CONFIG_BASE) * BYTES_PER_REGISTER;
}

static uint32_t read_config(const struct bank *bank, unsigned lowest)
{
    uint32_t held = 0;

    for (unsigned i = 0; i < BYTES_PER_REGISTER; i++)
        held |= (uint32_t)bank->config[lowest + i] << 8 * i;
    return held;
}

static void write_config(struct bank *bank, unsigned lowest, uint32_t word)
{
    for (unsigned i = 0; i < BYTES_PER_REGISTER; i++)
        if (!is_locked(bank, lowest + i))
            bank->config[lowest + i] = legal_byte((uint8_t)(word >> 8 * i));
}

static void write_word(struct bank *bank, unsigned entry, uint32_t word)
{
    if (!is_word_locked(bank, entry))
        bank->word[entry] = word;
}

enum refusal bank_read(const struct bank *bank, uint64_t privilege,
                       uint64_t number, uint32_t *held)
{
    enum refusal refusal = refuse_register(privilege, number);

    if (refusal != REFUSED_NOT)
        return refusal;
    if (is_config_register(number))
        *held = read_config(bank, lowest_entry(number));
    else
        *held = bank->word[number - WORD_BASE];
    return REFUSED_NOT;
}

enum refusal bank_write(struct bank *bank, uint64_t privilege,
                        uint64_t number, uint32_t word, uint32_t *held)
{
    enum refusal refusal = refuse_register(privilege, number);

    if (refusal != REFUSED_NOT)
        return refusal;
    if (is_config_register(number))
        write_config(bank, lowest_entry(number), word);
    else
        write_word(bank, (unsigned)(number - WORD_BASE), word);
    return bank_read(bank, privilege, number, held);
}

static unsigned trailing_ones(uint32_t word)
{
    unsigned count = 0;

    for (; word & 1; word >>= 1)
        count++;
    return count;
}

static struct range napot_range(uint32_t word)
{
    unsigned ones = trailing_ones(word);
    uint64_t first = 4 * (word - ((UINT64_C(1) << ones) - 1));
    uint64_t past = first + (UINT64_C(1) << (ones + 3));

    return (struct range){first, past < BANK_LIMIT ? past : BANK_LIMIT};
}

static struct range na4_range(uint32_t word)
{
    uint64_t first = UINT64_C(4) * word;

    return (struct range){first, first + 4};
}

static struct range tor_range(const struct bank *bank, unsigned entry)
{
    uint64_t below = entry == 0 ? 0 : bank->word[entry - 1];

    return (struct range){4 * below, UINT64_C(4) * bank->word[entry]};
}

bool bank_range(const struct bank *bank, unsigned entry, struct range *range)
{
    switch (mode_of(bank, entry)) {
    case MODE_OFF:
        *range = (struct range){0, 0};
        break;
    case MODE_TOR:
        *range = tor_range(bank, entry);
        break;
    case MODE_NA4:
        *range = na4_range(bank->word[entry]);
        break;
    case MODE_NAPOT:
        *range = napot_range(bank->word[entry]);
        break;
    }
    return range->first < range->past;
}

/* Whether size bytes from address end by BANK_LIMIT; size is at most that. */
static bool is_within_limit(uint64_t address, uint64_t size)
{
    return address <= BANK_LIMIT - size;
}

enum refusal bank_range_word(uint64_t base, uint64_t exponent, uint32_t *word)
{
    uint64_t size;

    if (exponent < EXPONENT_MIN || exponent > EXPONENT_MAX)
        return REFUSED_EXPONENT;
    size = UINT64_C(1) << exponent;
    if (base % size != 0)
        return REFUSED_ALIGNMENT;
    if (!is_within_limit(base, size))
        return REFUSED_LIMIT;
    *word = (uint32_t)(base / 4 + size / 8 - 1);
    return REFUSED_NOT;
}

static bool is_size(uint64_t size)
{
    return size == 1 || size == 2 || size == 4 || size == 8;
}

static enum refusal refuse_check(uint64_t privilege, uint64_t kind,
                                 uint64_t address, uint64_t size)
{
    if (!is_privilege(privilege))
        return REFUSED_PRIVILEGE;
    if (kind > KIND_STORE)
        return REFUSED_KIND;
    if (!is_size(size))
        return REFUSED_SIZE;
    if (!is_within_limit(address, size))
        return REFUSED_LIMIT;
    return REFUSED_NOT;
}

static uint8_t needed_bit(enum kind kind)
{
    switch (kind) {
    case KIND_FETCH:
        return BIT_X;
    case KIND_LOAD:
        return BIT_R;
    default:
        return BIT_W;
    }
}

static unsigned cause_of(enum kind kind)
{
    switch (kind) {
    case KIND_FETCH:
        return 1;
    case KIND_LOAD:
        return 5;
    default:
        return 7;
    }
}

static bool overlaps(struct range range, struct range access)
{
    return range.first < access.past && access.first < range.past;
}

static bool contains(struct range range, struct range access)
{
    return range.first <= access.first && access.past <= range.past;
}

/* The lowest entry that holds a byte of the access, and its range; -1 when
   there is none. */
static int deciding_entry(const struct bank *bank, struct range access,
                          struct range *range)
{
    for (unsigned i = 0; i < BANK_ENTRIES; i++)
        if (bank_range(bank, i, range) && overlaps(*range, access))
            return (int)i;
    return -1;
}

/* Whether an entry that holds the whole access lets it pass. */
static bool entry_allows(const struct bank *bank, unsigned entry,
                         bool machine, enum kind kind)
{
    if (machine && !is_locked(bank, entry))
        return true;
    return (bank->config[entry] & needed_bit(kind)) != 0;
}

enum refusal bank_check(const struct bank *bank, uint64_t privilege,
                        uint64_t kind, uint64_t address, uint64_t size,
                        struct verdict *verdict)
{
    enum refusal refusal = refuse_check(privilege, kind, address, size);
    bool machine = privilege == PRIVILEGE_MACHINE;
    struct range access, range;

    if (refusal != REFUSED_NOT)
        return refusal;
    access = (struct range){address, address + size};
    verdict->entry = deciding_entry(bank, access, &range);
    if (verdict->entry < 0)
        verdict->allowed = machine;
    else
        verdict->allowed = contains(range, access)
            && entry_allows(bank, (unsigned)verdict->entry, machine,
                            (enum kind)kind);
    verdict->cause = verdict->allowed ? 0 : cause_of((enum kind)kind);
    return REFUSED_NOT;
}
