/* Reads a script of commands for a bank of memory protection entries from
   standard input and prints one answer for each command. */

#include "bank.h"

#include <inttypes.h>
#include <stdio.h>
#include <string.h>

#define SCRIPT_MAX 1048576
#define DIGITS_MAX 16
#define WORDS_MAX 5
#define ARGUMENTS_MAX (WORDS_MAX - 1)

/* A stretch of script bytes; any byte may occur in it. */
struct text {
    const unsigned char *bytes;
    size_t length;
};

/* Prints the answer to a command; false, and nothing printed, when an
   argument does not fit. */
typedef bool answerer(struct bank *bank, const uint64_t *argument);

struct command {
    const char *name;
    size_t arguments;
    answerer *answer;
};

static void print_refusal(enum refusal refusal)
{
    printf("r%d\n", (int)refusal);
}

static void print_word(enum refusal refusal, uint32_t word)
{
    if (refusal != REFUSED_NOT)
        print_refusal(refusal);
    else
        printf("ok %08" PRIx32 "\n", word);
}

static void print_verdict(const struct verdict *verdict)
{
    if (verdict->allowed)
        printf("allow ");
    else
        printf("fault %u ", verdict->cause);
    if (verdict->entry < 0)
        puts("none");
    else
        printf("%d\n", verdict->entry);
}

static bool answer_read(struct bank *bank, const uint64_t *argument)
{
    uint32_t held = 0;
    enum refusal refusal = bank_read(bank, argument[0], argument[1], &held);

    print_word(refusal, held);
    return true;
}

static bool answer_write(struct bank *bank, const uint64_t *argument)
{
    uint32_t held = 0;
    enum refusal refusal;

    if (argument[2] > UINT32_MAX)
        return false;
    refusal = bank_write(bank, argument[0], argument[1],
                         (uint32_t)argument[2], &held);
    print_word(refusal, held);
    return true;
}

static bool answer_check(struct bank *bank, const uint64_t *argument)
{
    struct verdict verdict;
    enum refusal refusal = bank_check(bank, argument[0], argument[1],
                                      argument[2], argument[3], &verdict);

    if (refusal != REFUSED_NOT)
        print_refusal(refusal);
    else
        print_verdict(&verdict);
    return true;
}

static bool answer_range(struct bank *bank, const uint64_t *argument)
{
    struct range range;

    if (argument[0] >= BANK_ENTRIES)
        return false;
    if (bank_range(bank, (unsigned)argument[0], &range))
        printf("%09" PRIx64 " %09" PRIx64 "\n", range.first, range.past);
    else
        puts("none");
    return true;
}

static bool answer_word(struct bank *bank, const uint64_t *argument)
{
    uint32_t word = 0;
    enum refusal refusal = bank_range_word(argument[0], argument[1], &word);

    (void)bank;
    print_word(refusal, word);
    return true;
}

static bool answer_reset(struct bank *bank, const uint64_t *argument)
{
    (void)argument;
    bank_reset(bank);
    puts("ok");
    return true;
}

static const struct command commands[] = {
    {"read", 2, answer_read},
    {"write", 3, answer_write},
    {"check", 4, answer_check},
    {"range", 1, answer_range},
    {"word", 2, answer_word},
    {"reset", 0, answer_reset},
};

static bool is_named(struct text text, const char *name)
{
    return text.length == strlen(name)
        && memcmp(text.bytes, name, text.length) == 0;
}

static const struct command *find_command(struct text name)
{
    for (size_t i = 0; i < sizeof commands / sizeof *commands; i++)
        if (is_named(name, commands[i].name))
            return &commands[i];
    return NULL;
}

static struct text skip(struct text text, size_t length)
{
    return (struct text){text.bytes + length, text.length - length};
}

/* The length up to the first such byte, or the whole length without one. */
static size_t length_before(struct text text, unsigned char stop)
{
    size_t length = 0;

    while (length < text.length && text.bytes[length] != stop)
        length++;
    return length;
}

/* Parts a line at every space. Gives the number of words, some of them
   perhaps empty, or zero when there are more than WORDS_MAX. */
static size_t split(struct text line, struct text *words)
{
    for (size_t count = 0; count < WORDS_MAX; count++) {
        size_t length = length_before(line, ' ');

        words[count] = (struct text){line.bytes, length};
        if (length == line.length)
            return count + 1;
        line = skip(line, length + 1);
    }
    return 0;
}

/* The value of a hexadecimal digit, or -1. */
static int digit_value(unsigned char byte)
{
    if (byte >= '0' && byte <= '9')
        return byte - '0';
    if (byte >= 'a' && byte <= 'f')
        return byte - 'a' + 10;
    if (byte >= 'A' && byte <= 'F')
        return byte - 'A' + 10;
    return -1;
}

static bool parse_number(struct text text, uint64_t *number)
{
    if (text.length >= 2 && memcmp(text.bytes, "0x", 2) == 0)
        text = skip(text, 2);
    if (text.length < 1 || text.length > DIGITS_MAX)
        return false;
    *number = 0;
    for (size_t i = 0; i < text.length; i++) {
        int value = digit_value(text.bytes[i]);

        if (value < 0)
            return false;
        *number = *number << 4 | (uint64_t)value;
    }
    return true;
}

static bool parse_numbers(const struct text *words, size_t count,
                          uint64_t *numbers)
{
    for (size_t i = 0; i < count; i++)
        if (!parse_number(words[i], &numbers[i]))
            return false;
    return true;
}

/* Prints the answer to a line; false, and nothing printed, when it is no
   command. */
static bool answer_line(struct bank *bank, struct text line)
{
    struct text words[WORDS_MAX];
    uint64_t arguments[ARGUMENTS_MAX];
    size_t count = split(line, words);
    const struct command *command;

    if (count == 0)
        return false;
    command = find_command(words[0]);
    if (command == NULL || count - 1 != command->arguments)
        return false;
    if (!parse_numbers(words + 1, command->arguments, arguments))
        return false;
    return command->answer(bank, arguments);
}

static bool is_silent(struct text line)
{
    return line.length == 0 || line.bytes[0] == '#';
}

static struct text without_return(struct text line)
{
    if (line.length > 0 && line.bytes[line.length - 1] == '\r')
        line.length--;
    return line;
}

static void run(struct text script)
{
    struct bank bank;

    bank_reset(&bank);
    for (size_t index = 0; script.length > 0; index++) {
        size_t length = length_before(script, '\n');
        struct text line = without_return((struct text){script.bytes, length});

        script = skip(script, length < script.length ? length + 1 : length);
        if (is_silent(line))
            continue;
        printf("%zu ", index);
        if (!answer_line(&bank, line))
            puts("?");
    }
}

int main(void)
{
    /* One byte more than allowed tells a script that is too long. */
    static unsigned char script[SCRIPT_MAX + 1];
    size_t length = fread(script, 1, sizeof script, stdin);

    if (ferror(stdin)) {
        fputs("calculator: cannot read the script\n", stderr);
        return 1;
    }
    if (length > SCRIPT_MAX)
        puts("script too long");
    else
        run((struct text){script, length});
    if (fflush(stdout) != 0 || ferror(stdout)) {
        fputs("calculator: cannot print the answers\n", stderr);
        return 1;
    }
    return 0;
}
