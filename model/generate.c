/* Prints a pseudo-random script for the calculator: generate SEED LINES.

   The same seed gives the same script everywhere, so no expression may hold
   two draws whose order the language leaves open. */

#include "decimal.h"

#include <stdbool.h>
#include <stdint.h>
#include <stdio.h>
#include <stdlib.h>
#include <string.h>

#define ENTRIES 16
#define BYTES_PER_REGISTER 4
#define CONFIG_BASE 0x3A0
#define WORD_BASE 0x3B0
#define LIMIT (UINT64_C(1) << 34)
#define DIGITS_MAX 16

/* Room for the longest command and what a slip may add to it. */
#define LINE_ROOM 256

#define MODE_OFF 0
#define MODE_TOR 1
#define MODE_NA4 2
#define MODE_NAPOT 3
#define BIT_L 0x80

struct line {
    unsigned char bytes[LINE_ROOM];
    size_t length;
};

/* The bytes and words written so far, kept loosely: they only steer the
   choice of addresses. */
struct generator {
    uint64_t state;
    uint8_t config[ENTRIES];
    uint32_t word[ENTRIES];
    unsigned setup;   /* how many of the next lines fill the bank */
    struct line line;
};

#include "draws.h"

/* Lines. */

/* Puts bytes in the place of some that the line holds. */
static void splice(struct line *line, size_t at, size_t removed,
                   const void *bytes, size_t count)
{
    size_t rest = line->length - at - removed;

    if (at + count + rest > LINE_ROOM)
        abort();
    memmove(line->bytes + at + count, line->bytes + at + removed, rest);
    memcpy(line->bytes + at, bytes, count);
    line->length = at + count + rest;
}

static void put_byte(struct generator *g, unsigned char byte)
{
    splice(&g->line, g->line.length, 0, &byte, 1);
}

static void put_text(struct generator *g, const char *text)
{
    splice(&g->line, g->line.length, 0, text, strlen(text));
}

static unsigned digit_count(uint64_t number)
{
    unsigned count = 1;

    while (number >>= 4)
        count++;
    return count;
}

static void put_digits(struct generator *g, uint64_t number, unsigned width)
{
    static const unsigned upper_percents[] = {0, 0, 50, 100};
    unsigned upper = ONE_OF(g, upper_percents);

    while (width-- > 0) {
        char digit = "0123456789abcdef"[number >> 4 * width & 15];

        put_byte(g, (unsigned char)(chance(g, upper) ? toupper(digit) : digit));
    }
}

/* A space and the number in one of its spellings. */
static void put_number(struct generator *g, uint64_t number)
{
    unsigned width = digit_count(number);

    put_text(g, chance(g, 40) ? " 0x" : " ");
    if (chance(g, 15))
        width += (unsigned)below(g, DIGITS_MAX + 1 - width);
    put_digits(g, number, width);
}

/* What the written words give. */

static unsigned mode_of(const struct generator *g, unsigned entry)
{
    return g->config[entry] >> 3 & 3;
}

static bool is_locked(const struct generator *g, unsigned entry)
{
    return (g->config[entry] & BIT_L) != 0;
}

static void note_config(struct generator *g, unsigned lowest, uint32_t word)
{
    for (unsigned i = 0; i < BYTES_PER_REGISTER; i++)
        if (!is_locked(g, lowest + i))
            g->config[lowest + i] = (uint8_t)(word >> 8 * i);
}

static void note_word(struct generator *g, unsigned entry, uint32_t word)
{
    if (!is_locked(g, entry))
        g->word[entry] = word;
}

static uint64_t lower_edge(const struct generator *g, unsigned entry)
{
    uint64_t word = g->word[entry];

    switch (mode_of(g, entry)) {
    case MODE_TOR:
        return entry == 0 ? 0 : UINT64_C(4) * g->word[entry - 1];
    case MODE_NAPOT:
        return 4 * (word & (word + 1));
    default:
        return 4 * word;
    }
}

static uint64_t upper_edge(const struct generator *g, unsigned entry)
{
    uint64_t word = g->word[entry];

    switch (mode_of(g, entry)) {
    case MODE_NA4:
        return 4 * (word + 1);
    case MODE_NAPOT:
        return 4 * ((word | (word + 1)) + 1);
    default:
        return 4 * word;
    }
}

/* An entry that is not off, if there is one. */
static unsigned active_entry(struct generator *g)
{
    unsigned start = (unsigned)below(g, ENTRIES);

    for (unsigned i = 0; i < ENTRIES; i++)
        if (mode_of(g, (start + i) % ENTRIES) != MODE_OFF)
            return (start + i) % ENTRIES;
    return start;
}

static uint64_t any_edge(struct generator *g)
{
    unsigned entry = active_entry(g);

    return chance(g, 50) ? lower_edge(g, entry) : upper_edge(g, entry);
}

/* Arguments. The odd ones are refused; many of them look valid once cut to
   fewer bits. */

static uint64_t odd_privilege(struct generator *g)
{
    static const uint64_t privileges[] = {
        2, 2, 2, 4, 4, 5, 7, 0x100, 0x103, 0x100000000, 0x100000003,
        0x8000000000000003, UINT64_MAX
    };

    return ONE_OF(g, privileges);
}

static uint64_t any_privilege(struct generator *g)
{
    static const uint64_t privileges[] = {0, 0, 0, 1, 1, 3, 3, 3, 3};

    return chance(g, 5) ? odd_privilege(g) : ONE_OF(g, privileges);
}

/* The privilege of a register command: mostly the one that may. */
static uint64_t register_privilege(struct generator *g)
{
    return chance(g, 92) ? 3 : any_privilege(g);
}

static uint64_t any_kind(struct generator *g)
{
    static const uint64_t odd_kinds[] = {
        3, 3, 4, 7, 0x100, 0x101, 0x100000002, 0x8000000000000000, UINT64_MAX
    };

    return chance(g, 4) ? ONE_OF(g, odd_kinds) : below(g, 3);
}

static uint64_t any_size(struct generator *g)
{
    static const uint64_t odd_sizes[] = {
        0, 0, 3, 3, 5, 6, 7, 9, 0x10, 0x10, 0x20, 0x80, 0x104, 0x100000008,
        0x400000000, 0x8000000000000001, UINT64_MAX
    };

    return chance(g, 4) ? ONE_OF(g, odd_sizes) : UINT64_C(1) << below(g, 4);
}

static uint64_t odd_register(struct generator *g)
{
    static const uint64_t registers[] = {
        0, 0x39F, 0x3A4, 0x3A5, 0x3A8, 0x3AF, 0x3C0, 0x3C1, 0x300, 0xA0,
        0x13A0, 0x103B0, 0x1000003A0, 0x1000003B1, 0x80000000000003B0,
        UINT64_MAX
    };

    return ONE_OF(g, registers);
}

static uint64_t any_register(struct generator *g)
{
    if (chance(g, 6))
        return odd_register(g);
    if (chance(g, 35))
        return CONFIG_BASE + below(g, ENTRIES / BYTES_PER_REGISTER);
    return WORD_BASE + below(g, ENTRIES);
}

static uint64_t any_index(struct generator *g)
{
    static const uint64_t odd_indexes[] = {
        0x10, 0x10, 0x11, 0x1F, 0xFF, 0x100, 0x10F, 0x100000000, 0x10000000F,
        UINT64_MAX
    };

    if (chance(g, 10))
        return ONE_OF(g, odd_indexes);
    return chance(g, 60) ? active_entry(g) : below(g, ENTRIES);
}

/* A number just before or just after a power of two that matters. */
static uint64_t limit_address(struct generator *g)
{
    static const uint64_t limits[] = {
        LIMIT, LIMIT, LIMIT, 0, 0, LIMIT / 4, LIMIT / 2, LIMIT * 2,
        UINT64_C(1) << 63
    };
    uint64_t limit = ONE_OF(g, limits);

    return limit - 9 + below(g, 12);
}

/* An address such that the access stands at an edge of a range or across
   it. */
static uint64_t edge_address(struct generator *g, uint64_t size)
{
    uint64_t edge = any_edge(g);
    uint64_t address = edge;

    if (chance(g, 20))
        address = edge - size;
    else if (chance(g, 25))
        address = edge - size / 2;
    else if (chance(g, 50))
        address = edge - 8 + below(g, 13);
    return address <= LIMIT ? address : edge;
}

/* A bit that a number of 32 bits has no place for. */
static uint64_t high_bit(struct generator *g)
{
    return UINT64_C(1) << (32 + below(g, 32));
}

/* An edge with a high bit set as well, which a cut to 32 bits would lose. */
static uint64_t raised_edge(struct generator *g)
{
    uint64_t edge = any_edge(g);

    return edge | high_bit(g);
}

static uint64_t any_address(struct generator *g, uint64_t size)
{
    if (chance(g, 75))
        return edge_address(g, size);
    if (chance(g, 35))
        return below(g, 0x400);
    if (chance(g, 50))
        return limit_address(g);
    if (chance(g, 70))
        return below(g, LIMIT);
    return chance(g, 50) ? draw(g) : raised_edge(g);
}

/* Words to write. */

static uint8_t plausible_byte(struct generator *g)
{
    static const uint8_t modes[] = {
        MODE_OFF, MODE_OFF, MODE_OFF, MODE_TOR, MODE_TOR, MODE_TOR, MODE_NA4,
        MODE_NAPOT, MODE_NAPOT, MODE_NAPOT
    };
    uint8_t byte = (uint8_t)(ONE_OF(g, modes) << 3);

    byte |= (uint8_t)below(g, 8);
    if (chance(g, 8))
        byte |= BIT_L;
    if (chance(g, 8))
        byte |= (uint8_t)(below(g, 4) << 5);
    return byte;
}

static uint32_t config_word(struct generator *g)
{
    uint32_t word = 0;

    if (chance(g, 3))
        return (uint32_t)draw(g);
    for (unsigned i = 0; i < BYTES_PER_REGISTER; i++)
        word = word << 8 | plausible_byte(g);
    return word;
}

/* Mostly few, at times many or nearly all of the bits of a word. */
static unsigned some_ones(struct generator *g)
{
    if (chance(g, 75))
        return (unsigned)below(g, 6);
    if (chance(g, 60))
        return (unsigned)below(g, 33);
    return 30 + (unsigned)below(g, 3);
}

static uint32_t small_word(struct generator *g)
{
    return (uint32_t)below(g, 0x100);
}

/* A word that ends in a zero and then some ones. */
static uint32_t napot_word(struct generator *g)
{
    uint64_t unit = UINT64_C(1) << some_ones(g);
    uint64_t base = chance(g, 85) ? small_word(g) : draw(g);

    return (uint32_t)((base & ~(2 * unit - 1)) | (unit - 1));
}

/* A word a little above, or now and then below, that of the entry before. */
static uint32_t chained_word(struct generator *g, unsigned entry)
{
    uint32_t before = entry == 0 ? 0 : g->word[entry - 1];
    uint32_t step = (uint32_t)below(g, 0x20);

    return chance(g, 85) ? before + step : before - step;
}

/* A word that gives one of the largest or the last ranges. */
static uint32_t extreme_word(struct generator *g)
{
    static const uint32_t words[] = {
        0xFFFFFFFF, 0xFFFFFFFF, 0xFFFFFFFF, 0xFFFFFFFE, 0xFFFFFFFD, 0xFFFFFFFC,
        0xFFFFFFFB, 0xFFFFFFF7, 0xBFFFFFFF, 0x80000000, 0x7FFFFFFF, 0x7FFFFFFE
    };

    return ONE_OF(g, words);
}

static uint32_t address_word(struct generator *g, unsigned entry)
{
    if (chance(g, 35))
        return napot_word(g);
    if (chance(g, 55))
        return chained_word(g, entry);
    if (chance(g, 60))
        return small_word(g);
    return chance(g, 50) ? extreme_word(g) : (uint32_t)draw(g);
}

/* Commands. */

static void put_write(struct generator *g, uint64_t privilege,
                      uint64_t number, uint64_t word)
{
    put_text(g, "write");
    put_number(g, privilege);
    put_number(g, number);
    put_number(g, word);
}

static void make_config_write(struct generator *g)
{
    unsigned index = (unsigned)below(g, ENTRIES / BYTES_PER_REGISTER);
    uint32_t word = config_word(g);

    put_write(g, 3, CONFIG_BASE + index, word);
    note_config(g, index * BYTES_PER_REGISTER, word);
}

static void make_word_write(struct generator *g)
{
    unsigned entry = (unsigned)below(g, ENTRIES);
    uint32_t word = address_word(g, entry);

    put_write(g, 3, WORD_BASE + entry, word);
    note_word(g, entry, word);
}

/* A write that is likely to be refused. */
static void make_odd_write(struct generator *g)
{
    uint64_t privilege = any_privilege(g);
    uint64_t number = chance(g, 40) ? odd_register(g) : any_register(g);
    uint64_t word = config_word(g);

    if (chance(g, 15))
        word |= high_bit(g);
    put_write(g, privilege, number, word);
}

static void make_read(struct generator *g)
{
    put_text(g, "read");
    put_number(g, register_privilege(g));
    put_number(g, any_register(g));
}

static void make_check(struct generator *g)
{
    uint64_t privilege = any_privilege(g);
    uint64_t kind = any_kind(g);
    uint64_t size = any_size(g);
    uint64_t address = any_address(g, size);

    put_text(g, "check");
    put_number(g, privilege);
    put_number(g, kind);
    put_number(g, address);
    put_number(g, size);
}

static void make_range(struct generator *g)
{
    put_text(g, "range");
    put_number(g, any_index(g));
}

static void put_word(struct generator *g, uint64_t base, uint64_t exponent)
{
    put_text(g, "word");
    put_number(g, base);
    put_number(g, exponent);
}

/* A base that fits, or that fails by a little. */
static void make_near_word(struct generator *g)
{
    unsigned exponent = 3 + (unsigned)below(g, 32);
    uint64_t size = UINT64_C(1) << exponent;
    uint64_t base = below(g, LIMIT / size) * size;

    if (chance(g, 15))
        base = LIMIT - size;
    if (chance(g, 15))
        base += size / 2;
    if (chance(g, 10))
        base += below(g, size);
    if (chance(g, 15))
        base += LIMIT << below(g, 30);
    put_word(g, base, exponent);
}

/* Any base, with an exponent that is likely to be refused. */
static void make_far_word(struct generator *g)
{
    static const uint64_t odd_exponents[] = {
        0, 1, 2, 2, 2, 0x23, 0x23, 0x23, 0x24, 0x3F, 0x40, 0x43, 0x63, 0x80,
        0x103, 0x100000003, 0x8000000000000022, UINT64_MAX
    };
    uint64_t base = chance(g, 50) ? limit_address(g) : draw(g);
    uint64_t exponent = chance(g, 50) ? below(g, 41) : ONE_OF(g, odd_exponents);

    base <<= chance(g, 50) ? below(g, 64) : 0;
    put_word(g, base, exponent);
}

static void make_reset(struct generator *g)
{
    put_text(g, "reset");
    memset(g->config, 0, sizeof g->config);
    memset(g->word, 0, sizeof g->word);
    g->setup = (unsigned)below(g, 24);
}

/* Lines that are no commands. */

static void make_blank(struct generator *g)
{
    (void)g;
}

static void make_comment(struct generator *g)
{
    static const char *const comments[] = {
        "#", "##", "# a comment", "#reset", "# reset", "#\twith a tab ",
        "# \xC3\xA9"
    };

    put_text(g, ONE_OF(g, comments));
}

static void make_unknown(struct generator *g)
{
    static const char *const unknowns[] = {
        "peek 3 3a0", "reads 3 3a0", "rea 3 3a0", "READ 3 3a0",
        "Write 3 3b0 0", "writ 3 3b0 0", "chec 0 1 0 1", "checks 0 1 0 1",
        "ranges 0", "rang 0", "words 0 3", "wor 0 3", "resets", "rese",
        "RESET", "reset 0", "reset,", "3", "0x3a0", "?", "ok", "none", " ",
        "  ", "\t", "\r", " #", "read", "write", "check", "range", "word",
        "read 3 3a0 # why", "read,3,3a0", "reset;reset"
    };

    put_text(g, ONE_OF(g, unknowns));
}

/* Any byte but the one that would end the line. */
static unsigned char any_byte(struct generator *g)
{
    static const unsigned char telling[] = {0, 0x80, 0xFF, '\r', '\t', ' '};
    unsigned char byte = (unsigned char)draw(g);

    if (byte == '\n' || chance(g, 30))
        return ONE_OF(g, telling);
    return byte;
}

static void make_noise(struct generator *g)
{
    uint64_t length = 1 + below(g, 20);

    while (length-- > 0)
        put_byte(g, any_byte(g));
}

/* Slips: small faults put into a line that is made already. */

/* The place of a byte drawn from those that are spaces, or the length of a
   line that has none. */
static size_t any_space(struct generator *g)
{
    const struct line *line = &g->line;
    size_t place = line->length;
    uint64_t spaces = 0;

    for (size_t i = 0; i < line->length; i++)
        if (line->bytes[i] == ' ' && below(g, ++spaces) == 0)
            place = i;
    return place;
}

static size_t last_space(const struct line *line)
{
    size_t place = line->length;

    while (place > 0 && line->bytes[place - 1] != ' ')
        place--;
    return place > 0 ? place - 1 : line->length;
}

/* The length of the word that begins at a place. */
static size_t word_length(const struct line *line, size_t start)
{
    size_t end = start;

    while (end < line->length && line->bytes[end] != ' ')
        end++;
    return end - start;
}

static void slip_double_space(struct generator *g)
{
    splice(&g->line, any_space(g), 0, " ", 1);
}

static void slip_trailing_space(struct generator *g)
{
    put_byte(g, ' ');
}

static void slip_leading_space(struct generator *g)
{
    splice(&g->line, 0, 0, " ", 1);
}

static void slip_tab(struct generator *g)
{
    size_t place = any_space(g);

    splice(&g->line, place, place < g->line.length ? 1 : 0, "\t", 1);
}

static void slip_missing_word(struct generator *g)
{
    g->line.length = last_space(&g->line);
}

static void slip_extra_word(struct generator *g)
{
    put_number(g, below(g, 8));
}

/* Puts a spelling that is no number, or at times an unusual one that is, in
   the place of an argument. */
static void slip_number(struct generator *g)
{
    static const char *const spellings[] = {
        "", "0x", "0X12", "0X", "x12", "0x0x1", "00x1", "1x0", "g", "12g",
        "0xG", "-1", "+1", "1.", "1_0", "0b1", "1h", "0o7", "`", "@", ":", "/",
        "0x ", "\xEF\xBC\x91", "1\r", "0x1\t",
        "00000000000000003", "0x00000000000000003", "10000000000000000",
        "0x10000000000000000", "fffffffffffffffff",
        "0000000000000003", "0x0000000000000003", "0xfFfFfFfFfFfFfFfF"
    };
    size_t space = any_space(g);
    const char *spelling = ONE_OF(g, spellings);

    if (space < g->line.length)
        splice(&g->line, space + 1, word_length(&g->line, space + 1),
               spelling, strlen(spelling));
}

static void slip_byte(struct generator *g)
{
    size_t place = (size_t)below(g, g->line.length + 1);
    unsigned char byte = any_byte(g);

    splice(&g->line, place, 0, &byte, 1);
}

static void slip_lost_byte(struct generator *g)
{
    if (g->line.length > 0)
        splice(&g->line, (size_t)below(g, g->line.length), 1, "", 0);
}

static void slip_case(struct generator *g)
{
    size_t place = (size_t)below(g, word_length(&g->line, 0) + 1);

    if (place < g->line.length)
        g->line.bytes[place] = (unsigned char)toupper(g->line.bytes[place]);
}

static void slip_return(struct generator *g)
{
    put_text(g, chance(g, 50) ? "\r" : "\r\r");
}

static const struct choice slips[] = {
    {2, slip_double_space},
    {2, slip_trailing_space},
    {2, slip_leading_space},
    {2, slip_tab},
    {3, slip_missing_word},
    {3, slip_extra_word},
    {8, slip_number},
    {4, slip_byte},
    {1, slip_lost_byte},
    {1, slip_case},
    {2, slip_return},
};

/* The script. */

static const struct choice setups[] = {
    {3, make_config_write},
    {5, make_word_write},
};

static const struct choice lines[] = {
    {100, make_config_write},
    {130, make_word_write},
    {50, make_odd_write},
    {55, make_read},
    {415, make_check},
    {95, make_range},
    {50, make_near_word},
    {25, make_far_word},
    {35, make_reset},
    {10, make_blank},
    {10, make_comment},
    {15, make_unknown},
    {10, make_noise},
};

static void make_line(struct generator *g)
{
    if (g->setup > 0) {
        g->setup--;
        MAKE_ONE(g, setups);
    } else {
        MAKE_ONE(g, lines);
    }
    if (chance(g, 7))
        MAKE_ONE(g, slips);
}

static void print_line(struct generator *g)
{
    fwrite(g->line.bytes, 1, g->line.length, stdout);
    g->line.length = 0;
}

/* A line without its LF must not be blank, or it would be none. */
static void print_open_line(struct generator *g)
{
    make_check(g);
    if (chance(g, 50))
        put_byte(g, '\r');
    print_line(g);
}

static void print_ended_line(struct generator *g)
{
    make_line(g);
    put_text(g, chance(g, 6) ? "\r\n" : "\n");
    print_line(g);
}

static void print_script(uint64_t seed, uint64_t count)
{
    struct generator g = {.state = seed, .setup = 12};
    bool open = seed % 2 == 1 && count > 0;
    uint64_t ended = open ? count - 1 : count;

    while (ended-- > 0)
        print_ended_line(&g);
    if (open)
        print_open_line(&g);
}

int main(int argc, char **argv)
{
    uint64_t seed, count;

    if (argc != 3 || !parse_decimal(argv[1], &seed)
        || !parse_decimal(argv[2], &count)) {
        fputs("usage: generate SEED LINES\n", stderr);
        return 2;
    }
    print_script(seed, count);
    if (fflush(stdout) != 0 || ferror(stdout)) {
        fputs("generate: cannot print the script\n", stderr);
        return 1;
    }
    return 0;
}
