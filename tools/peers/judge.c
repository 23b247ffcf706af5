/*
 * Reads questions, a line each, and writes answers, a line each. Numbers are hexadecimal. REGISTERS are the width, the
 * capabilities, the PAT, the default type register, eleven fixed-range registers, and each pair's base and mask.
 *
 *     types REGISTERS ; PAGE ..             two digits a page: its type
 *     allows REGISTERS                      `y` or `n` for each writable register, in ascending order
 *     effective TYPE ENTRY                  two digits
 *     pairs REGISTERS ; FIRST TYPE ..       DEFAULT BASE MASK .., or `none WHY`
 */
#include "judge.h"

#include <stdio.h>
#include <stdlib.h>
#include <string.h>

static const unsigned fixed_numbers[JUDGE_FIXED] = {0x250, 0x258, 0x259, 0x268, 0x269, 0x26a, 0x26b, 0x26c, 0x26d, 0x26e, 0x26f};

/* The next number of the text, or -1 where none stands there. */
static int number(char **at, uint64_t *into)
{
    char *end;
    *into = strtoull(*at, &end, 16);
    if (end == *at) return -1;
    *at = end;
    return 0;
}

static uint64_t want(char **at)
{
    uint64_t value;
    if (number(at, &value)) {
        fprintf(stderr, "judge: a number is missing\n");
        exit(2);
    }
    return value;
}

static void read_registers(char **at, struct registers *r)
{
    memset(r, 0, sizeof *r);
    r->width = want(at);
    r->cap = want(at);
    r->pat = want(at);
    r->def_type = want(at);
    for (int i = 0; i < JUDGE_FIXED; i++) r->fixed[i] = want(at);
    r->count = r->cap & 0xff;
    for (unsigned i = 0; i < r->count; i++) {
        r->base[i] = want(at);
        r->mask[i] = want(at);
    }
    while (**at == ' ' || **at == ';') ++*at;
}

static void answer_types(char *at)
{
    struct registers r;
    uint64_t page;
    read_registers(&at, &r);
    judge.set(&r);
    while (!number(&at, &page)) printf("%02x", judge.type(page));
    putchar('\n');
}

static void say_allowed(const struct registers *r, unsigned number, uint64_t value)
{
    putchar(judge.allows(r, number, value) ? 'y' : 'n');
}

static void answer_allows(char *at)
{
    struct registers r;
    read_registers(&at, &r);
    for (unsigned i = 0; i < r.count; i++) {
        say_allowed(&r, 0x200 + 2 * i, r.base[i]);
        say_allowed(&r, 0x201 + 2 * i, r.mask[i]);
    }
    for (int i = 0; i < JUDGE_FIXED && (r.cap & 0x100); i++) say_allowed(&r, fixed_numbers[i], r.fixed[i]);
    say_allowed(&r, 0x277, r.pat);
    say_allowed(&r, 0x2ff, r.def_type);
    putchar('\n');
}

static void answer_pairs(char *at)
{
    static struct registers r;
    static struct run runs[JUDGE_RUNS];
    static struct answer a;
    size_t count = 0;
    read_registers(&at, &r);
    while (count < JUDGE_RUNS && !number(&at, &runs[count].first)) runs[count++].type = want(&at);
    memset(&a, 0, sizeof a);
    const char *why = judge.pairs(&r, runs, count, &a);
    if (why) {
        printf("none %s\n", why);
        return;
    }
    printf("%x", a.def_type);
    for (unsigned i = 0; i < a.count; i++) printf(" %llx %llx", (unsigned long long)a.base[i], (unsigned long long)a.mask[i]);
    putchar('\n');
}

int main(void)
{
    char *line = NULL;
    size_t room = 0;
    while (getline(&line, &room, stdin) > 0) {
        char *at = strchr(line, ' ');
        if (!at) return 2;
        if (!strncmp(line, "types ", 6)) answer_types(at);
        else if (!strncmp(line, "allows ", 7)) answer_allows(at);
        else if (!strncmp(line, "pairs ", 6)) answer_pairs(at);
        else if (!strncmp(line, "effective ", 10)) {
            unsigned type = want(&at), entry = want(&at);
            printf("%02x\n", judge.effective(type, entry));
        } else return 2;
    }
    return fflush(stdout) ? 1 : 0;
}
