/* Calls mtrr_tidy and EDK2's solver on the registers that a line of standard input has, as tools/peers/judge.c reads it. Prints how many
 * pairs each needs and, of so many rounds as are asked for, the least ticks of a call. Built by library/speed. */
#include <stdio.h>
#include "mtrr.h"
#include "../tools/peers/edk2.c"

static struct mtrr_registers file;
static struct mtrr_need need;
static MTRR_MEMORY_RANGE map[MTRR_MAX_RUNS + 1], ranges[MTRR_MAX_RUNS + 1], found[MTRR_MAX_PAIRS * 2];
static UINTN count;

/* The type map as EDK2 has it: where fixed-range registers are on, the first megabyte is UC. */
static void take_map(void)
{
    struct mtrr_run runs[MTRR_MAX_RUNS];
    uint64_t begin = file.default_type & 0x400 ? BASE_1MB : 0;
    size_t all = 0;
    if (mtrr_type_map(&file, runs, MTRR_MAX_RUNS, &all) != MTRR_DONE) exit(1);
    if (begin) map[count++] = (MTRR_MEMORY_RANGE){0, begin, CacheUncacheable};
    for (size_t i = 0; i < all; i++) {
        uint64_t first = MAX(runs[i].first << 12, begin), end = (runs[i].first + runs[i].pages) << 12;
        if (first >= end) continue;
        if (count && map[count - 1].Type == runs[i].kind) map[count - 1].Length += end - first;
        else map[count++] = (MTRR_MEMORY_RANGE){first, end - first, runs[i].kind};
    }
}

__attribute__((noinline)) uint32_t ours(void)
{
    static struct mtrr_work work;
    static struct mtrr_registers tidied;
    return mtrr_tidy(&file, 0, 1ULL << 52, &work, &tidied, &need);
}

/* A pair of the first megabyte alone isn't counted: EDK2's caller of the solver takes it out. */
__attribute__((noinline)) uint32_t theirs(void)
{
    static char scratch[1 << 20];
    UINTN size = sizeof scratch;
    UINT32 pairs = 0;
    uint64_t most = 1ULL << (file.width - 1);
    if (MtrrLibSetMemoryRanges(file.default_type & 0xff, most, ranges, count, scratch, &size, found, MTRR_MAX_PAIRS * 2, &pairs)) exit(1);
    for (UINT32 i = 0; i < pairs; i++)
        if (file.default_type & 0x400 && !found[i].BaseAddress && found[i].Length == SIZE_1MB) return pairs - 1;
    return pairs;
}

int main(int argc, char **argv)
{
    uint64_t words[4 + MTRR_FIXED_REGISTERS + 2 * MTRR_MAX_PAIRS] = {0}, least[2] = {-1, -1};
    for (size_t i = 0; i < sizeof words / sizeof *words && scanf("%lx", &words[i]) == 1; i++) {}
    file.width = words[0], file.capabilities = words[1], file.pat = words[2], file.default_type = words[3];
    memcpy(file.fixed, words + 4, sizeof file.fixed);
    memcpy(file.pairs, words + 4 + MTRR_FIXED_REGISTERS, sizeof file.pairs);
    take_map();
    for (int round = atoi(argv[1]); round > 0; round--) {
        memcpy(ranges, map, sizeof map); /* the solver changes them */
        uint64_t start = __builtin_ia32_rdtsc(), status = ours(), middle = __builtin_ia32_rdtsc(), pairs = theirs();
        least[1] = MIN(least[1], __builtin_ia32_rdtsc() - middle), least[0] = MIN(least[0], middle - start);
        if (status != MTRR_DONE && status != MTRR_TOO_FEW) return 1;
        if (round == 1) printf("%lu %lu %lu %lu\n", need.needs, pairs, least[0], least[1]);
    }
}
