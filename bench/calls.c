/* Prints the least nanoseconds of a call of mtrr_page_type and of mtrr_tidy: see bench/calls. */
#define _POSIX_C_SOURCE 199309L
#include <stdio.h>
#include <time.h>
#include "mtrr.h"

static struct mtrr_registers file = {.width = 36, .capabilities = 0x508, .pairs = {{6, 0xf80000800}, {0x80000006, 0xfc0000800}},
                                     .pat = 0x0007040600070406, .default_type = 0x800};
static struct mtrr_registers tidied;
static struct mtrr_work work;
static struct mtrr_need need;
static uint32_t kind;

static void page(void) { mtrr_page_type(&file, 0xfee00, &kind); }
static void tidy(void) { mtrr_tidy(&file, 1, 1ull << 52, &work, &tidied, &need); }

static double least(void (*call)(void), int calls)
{
    double best = 1e9;
    for (int round = 0; round < 500; round++) {
        struct timespec start, end;
        clock_gettime(CLOCK_MONOTONIC, &start);
        for (int i = 0; i < calls; i++)
            call();
        clock_gettime(CLOCK_MONOTONIC, &end);
        double took = ((end.tv_sec - start.tv_sec) * 1e9 + (end.tv_nsec - start.tv_nsec)) / calls;
        best = took < best ? took : best;
    }
    return best;
}

int main(void)
{
    printf("C: type_at %.0f ns, tidy %.0f ns\n", least(page, 1000), least(tidy, 100));
}
