/*
 * Reads a dump from standard input, as `mtrr` reads it but less strictly; of
 * several processors it takes processor 0. `check` writes the first fault or
 * `accepted`, `types` the type of each stretch of addresses, `page ADDR INDEX`
 * the types of one page, `tidy [CHUNK]` the tidied registers, and `gran SIZE
 * [CHUNK]` the rounded ones with what is lost.
 */
#include <inttypes.h>
#include <stdio.h>
#include <stdlib.h>
#include <string.h>

#include "mtrr.h"

/* A type that the PAT alone has. */
#define UC_MINUS 7

static const uint32_t fixed_numbers[MTRR_FIXED_REGISTERS] = {
    0x250, 0x258, 0x259, 0x268, 0x269, 0x26a,
    0x26b, 0x26c, 0x26d, 0x26e, 0x26f};

/* Where a register's value stands, or NULL where the struct hasn't it. */
static uint64_t *place_of(struct mtrr_registers *registers, uint64_t number)
{
    if (number == MTRR_MSR_CAPABILITIES)
        return &registers->capabilities;
    if (number == MTRR_MSR_PAT)
        return &registers->pat;
    if (number == MTRR_MSR_DEF_TYPE)
        return &registers->default_type;
    if (number >= MTRR_MSR_PHYSBASE(0) && number <= MTRR_MSR_PHYSMASK(31)) {
        struct mtrr_pair *pair = &registers->pairs[(number - 0x200) / 2];
        return number % 2 == 0 ? &pair->base : &pair->mask;
    }
    for (size_t i = 0; i < MTRR_FIXED_REGISTERS; i++)
        if (number == fixed_numbers[i])
            return &registers->fixed[i];
    return NULL;
}

/* Takes lines as `200: 6`, `maxphyaddr 36` and comments; far less strict than
 * the program. */
static int read_dump(FILE *in, struct mtrr_registers *registers)
{
    char line[512];
    int is_first = 1;
    while (fgets(line, sizeof line, in)) {
        char *comment = strchr(line, '#');
        if (comment)
            *comment = 0;
        char *first = strtok(line, " \t:\r\n");
        if (!first)
            continue;
        char *second = strtok(NULL, " \t:\r\n");
        if (!second)
            return 0;
        if (strcmp(first, "cpu") == 0)
            is_first = strtoull(second, NULL, 10) == 0;
        if (!is_first || strcmp(first, "cpu") == 0 ||
            strcmp(first, "version") == 0)
            continue;
        if (strcmp(first, "maxphyaddr") == 0) {
            registers->width = strtoull(second, NULL, 10);
            continue;
        }
        uint64_t *place = place_of(registers, strtoull(first, NULL, 16));
        if (!place)
            return 0;
        *place = strtoull(second, NULL, 16);
    }
    return 1;
}

static const char *name_of(uint32_t kind)
{
    switch (kind) {
    case MTRR_UC:
        return "UC";
    case MTRR_WC:
        return "WC";
    case MTRR_WT:
        return "WT";
    case MTRR_WP:
        return "WP";
    case UC_MINUS:
        return "UC-";
    default:
        return "WB";
    }
}

static const char *reason_of(uint32_t reason)
{
    switch (reason) {
    case MTRR_RESERVED_BIT:
        return "reserved bit";
    case MTRR_UNSUPPORTED_TYPE:
        return "unsupported type";
    case MTRR_BROKEN_MASK:
        return "broken mask";
    default:
        return "undefined overlap";
    }
}

static void print_run(const struct mtrr_run *run)
{
    printf("%013" PRIx64 "-%013" PRIx64 " %s\n", run->first * 4096,
           (run->first + run->pages) * 4096 - 1, name_of(run->kind));
}

static int print_map(const struct mtrr_registers *registers)
{
    struct mtrr_run runs[MTRR_MAX_RUNS];
    size_t count;
    if (mtrr_type_map(registers, runs, MTRR_MAX_RUNS, &count) != MTRR_DONE)
        return 1;
    for (size_t i = 0; i < count; i++)
        print_run(&runs[i]);
    return 0;
}

static int print_page(const struct mtrr_registers *registers, uint64_t address,
                      uint32_t index)
{
    uint32_t kind, effective;
    if (mtrr_page_type(registers, address / 4096, &kind) != MTRR_DONE ||
        mtrr_effective_type(registers, address / 4096, index, &effective) !=
            MTRR_DONE)
        return 2;
    printf("page %013" PRIx64 " mtrr %s pat %s effective %s\n",
           address / 4096 * 4096, name_of(kind),
           name_of(registers->pat >> 8 * index & 0xff), name_of(effective));
    return 0;
}

/* Each register in ascending order, as `mtrr show` writes them. */
static void print_file(struct mtrr_registers *registers)
{
    printf("maxphyaddr %" PRIu64 "\n", registers->width);
    printf("%03x %016" PRIx64 "\n", MTRR_MSR_CAPABILITIES,
           registers->capabilities);
    uint64_t pairs = registers->capabilities & 0xff;
    for (uint64_t number = 0x200; number < 0x200 + 2 * pairs; number++)
        printf("%03" PRIx64 " %016" PRIx64 "\n", number,
               *place_of(registers, number));
    if (registers->capabilities & 0x100)
        for (size_t i = 0; i < MTRR_FIXED_REGISTERS; i++)
            printf("%03" PRIx32 " %016" PRIx64 "\n", fixed_numbers[i],
                   registers->fixed[i]);
    printf("%03x %016" PRIx64 "\n", MTRR_MSR_PAT, registers->pat);
    printf("%03x %016" PRIx64 "\n", MTRR_MSR_DEF_TYPE, registers->default_type);
}

/* A file with the fewest pairs, or why there is none. */
static int print_new(uint32_t answer, const struct mtrr_registers *registers,
                     struct mtrr_registers *file, const struct mtrr_need *need)
{
    switch (answer) {
    case MTRR_DISABLED:
        printf("disabled %03x %016" PRIx64 "\n", MTRR_MSR_DEF_TYPE,
               registers->default_type);
        return 1;
    case MTRR_TOO_FEW:
        printf("too few needs %" PRIu64 " has %" PRIu64 "\n", need->needs,
               need->has);
        return 1;
    case MTRR_NO_GRANULE:
        puts("no such granule");
        return 1;
    case MTRR_DONE:
        printf("# used %" PRIu64 "\n", need->needs);
        print_file(file);
        return 0;
    default:
        return 2;
    }
}

static int print_tidied(const struct mtrr_registers *registers,
                        unsigned char spare, uint64_t chunk)
{
    static struct mtrr_work work;
    struct mtrr_registers tidied;
    struct mtrr_need need;
    uint32_t answer = mtrr_tidy(registers, spare, chunk, &work, &tidied, &need);
    return print_new(answer, registers, &tidied, &need);
}

static int print_rounded(const struct mtrr_registers *registers, uint64_t size,
                         unsigned char spare, uint64_t chunk)
{
    static struct mtrr_work work;
    struct mtrr_registers rounded;
    struct mtrr_need need;
    struct mtrr_loss loss;
    struct mtrr_run parts[MTRR_MAX_PARTS];
    uint32_t answer = mtrr_gran(registers, size, spare, chunk, &work, &rounded,
                                &need, &loss, parts, MTRR_MAX_PARTS);
    if (answer == MTRR_DONE) {
        for (uint64_t i = 0; i < loss.parts; i++) {
            fputs("# part ", stdout);
            print_run(&parts[i]);
        }
        printf("# lost %" PRIu64 "\n", loss.pages);
    }
    return print_new(answer, registers, &rounded, &need);
}

/* The word at a place as a hexadecimal number, where there is one. */
static uint64_t number_at(int count, char **words, int place, uint64_t usual)
{
    return count > place ? strtoull(words[place], NULL, 16) : usual;
}

int main(int count, char **words)
{
    struct mtrr_registers registers;
    memset(&registers, 0, sizeof registers);
    registers.width = 36;
    registers.pat = 0x0007040600070406;
    if (!read_dump(stdin, &registers)) {
        fputs("bad dump\n", stderr);
        return 2;
    }
    struct mtrr_fault fault;
    switch (mtrr_first_fault(&registers, &fault)) {
    case MTRR_NO_FILE:
        fputs("no register file\n", stderr);
        return 2;
    case MTRR_FAULT:
        printf("refused %03" PRIx32 " %s\n", fault.number,
               reason_of(fault.reason));
        return 1;
    }
    if (count >= 2 && strcmp(words[1], "types") == 0)
        return print_map(&registers);
    if (count >= 4 && strcmp(words[1], "page") == 0)
        return print_page(&registers, strtoull(words[2], NULL, 16),
                          (uint32_t)strtoul(words[3], NULL, 10));
    if (count >= 2 && strcmp(words[1], "tidy") == 0)
        return print_tidied(&registers, 1,
                            number_at(count, words, 2, 0x10000000));
    if (count >= 3 && strcmp(words[1], "gran") == 0)
        return print_rounded(&registers, strtoull(words[2], NULL, 16), 1,
                             number_at(count, words, 3, 0x10000000));
    puts("accepted");
    return 0;
}
