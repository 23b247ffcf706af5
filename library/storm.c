/*
 * The calls under a storm of interrupts on the same stack, as a kernel has
 * them: a program without a C library steps through each call by the trap flag.
 * Before every instruction a signal's handler overwrites the 128 bytes below
 * the stack pointer and the XMM registers, which an interrupt and a kernel's
 * own code may. The answers are to be those without the storm.
 *
 *     storm [SIGNALS]        3,000,000 unless told otherwise
 *
 * Prints how much stack each call took, as the handler saw it, and the number
 * of signals. The exit status is 0 if each answer was right, and 1 if not.
 */
#define _GNU_SOURCE
#include <signal.h>
#include <sys/syscall.h>
#include <ucontext.h>

#include "mtrr.h"

static long syscall_of(long number, long a, long b, long c, long d)
{
    long result;
    register long r10 __asm__("r10") = d;
    __asm__ volatile("syscall"
                     : "=a"(result)
                     : "a"(number), "D"(a), "S"(b), "d"(c), "r"(r10)
                     : "rcx", "r11", "memory");
    return result;
}

static void say(const char *text)
{
    long length = 0;
    while (text[length])
        length++;
    syscall_of(SYS_write, 1, (long)text, length, 0);
}

static void say_number(uint64_t number)
{
    char text[24];
    char *place = text + sizeof text - 1;
    *place = 0;
    do
        *--place = (char)('0' + number % 10);
    while (number /= 10);
    say(place);
}

/* ---- the storm */

static volatile uint64_t signals;
static uint64_t lowest;

static void interrupt(int number, siginfo_t *info, void *context)
{
    (void)number, (void)info;
    ucontext_t *interrupted = context;
    greg_t *registers = interrupted->uc_mcontext.gregs;
    uint64_t *stack = (uint64_t *)registers[REG_RSP];
    for (int i = 1; i <= 16; i++)
        stack[-i] = 0xa5a5a5a5a5a5a5a5u + signals;
    if ((uint64_t)stack < lowest)
        lowest = (uint64_t)stack;
    /* x87's and the vector registers, in the format of FXSAVE, with XSAVE's
     * word of what was in use behind it */
    uint64_t *saved = (uint64_t *)interrupted->uc_mcontext.fpregs;
    for (int i = 4; i < 52; i++)
        saved[i] = (uint64_t)signals * 0x9e3779b97f4a7c15u;
    if ((uint32_t)saved[58] == 0x46505853u)
        saved[64] |= 3;
    signals++;
}

static void __attribute__((noinline)) begin_storm(void)
{
    __asm__ volatile("pushfq\n\torq $0x100, (%%rsp)\n\tpopfq" ::
                         : "memory", "cc");
}

static void __attribute__((noinline)) end_storm(void)
{
    __asm__ volatile("pushfq\n\tandq $~0x100, (%%rsp)\n\tpopfq" ::
                         : "memory", "cc");
}

__asm__("come_back:\n\tmovl $15, %eax\n\tsyscall");
void come_back(void);

static void await_interrupts(void)
{
    static struct {
        void (*handler)(int, siginfo_t *, void *);
        unsigned long flags;
        void (*restorer)(void);
        unsigned long mask;
    } action = {interrupt, 0x04000004 | 0x40000000, come_back, 0};
    syscall_of(SYS_rt_sigaction, SIGTRAP, (long)&action, 0, 8);
}

/* ---- the calls */

static uint64_t seed = 1;

static uint64_t draw(uint64_t below)
{
    seed ^= seed << 13;
    seed ^= seed >> 7;
    seed ^= seed << 17;
    return (seed >> 11) % below;
}

static void draw_registers(struct mtrr_registers *r)
{
    static const uint8_t kinds[] = {0, 6, 6, 6, 0, 1, 4, 5};
    for (size_t i = 0; i < sizeof *r / 8; i++)
        ((uint64_t *)r)[i] = 0;
    r->width = 32 + draw(21);
    uint64_t pairs = draw(12);
    r->capabilities = 0x500 | pairs;
    r->pat = 0x0007040600070406u;
    r->default_type = 0xc00;
    for (uint64_t i = 0; i < pairs; i++) {
        uint64_t log = 12 + draw(r->width - 11);
        uint64_t top = ((uint64_t)1 << r->width) - 1;
        r->pairs[i].base =
            (draw((uint64_t)1 << (r->width - 12)) << 12 >> log << log) |
            kinds[draw(draw(3) ? 5 : 8)];
        r->pairs[i].mask = (top >> log << log) | 0x800;
    }
    for (int i = 0; i < MTRR_FIXED_REGISTERS; i++)
        r->fixed[i] = draw(2) ? 0x0606060606060606u : 0;
    if (draw(16) == 0)
        r->pairs[draw(32)].mask ^= (uint64_t)1 << draw(64);
}

/* What the calls are given, and what they wrote. */
struct asked {
    struct mtrr_registers registers;
    uint64_t page, size, chunk;
    struct mtrr_update update;
    struct mtrr_processor processor;
};

struct answers {
    uint32_t status[10], kind, effective;
    struct mtrr_fault fault;
    struct mtrr_need need[2];
    struct mtrr_loss loss;
    struct mtrr_registers tidied, rounded;
    struct mtrr_run runs[MTRR_MAX_RUNS], parts[MTRR_MAX_PARTS];
    size_t count;
    struct mtrr_step step;
    struct mtrr_update update;
    struct mtrr_processor processor;
};

static struct mtrr_work work;
static const char *const names[] = {
    "mtrr_is_file",        "mtrr_first_fault", "mtrr_page_type",
    "mtrr_effective_type", "mtrr_type_map",    "mtrr_tidy",
    "mtrr_gran",           "mtrr_due",         "mtrr_did"};
#define CALLS 9
static uint64_t stacks[CALLS];

static void ask(uint32_t call, struct asked *q, struct answers *a)
{
    switch (call) {
    case 0:
        a->status[0] = mtrr_is_file(&q->registers);
        break;
    case 1:
        a->status[1] = mtrr_first_fault(&q->registers, &a->fault);
        break;
    case 2:
        a->status[2] = mtrr_page_type(&q->registers, q->page, &a->kind);
        break;
    case 3:
        a->status[3] =
            mtrr_effective_type(&q->registers, q->page, 1, &a->effective);
        break;
    case 4:
        a->status[4] =
            mtrr_type_map(&q->registers, a->runs, MTRR_MAX_RUNS, &a->count);
        break;
    case 5:
        a->status[5] = mtrr_tidy(&q->registers, 1, q->chunk, &work, &a->tidied,
                                 &a->need[0]);
        break;
    case 6:
        a->status[6] =
            mtrr_gran(&q->registers, q->size, 1, q->chunk, &work, &a->rounded,
                      &a->need[1], &a->loss, a->parts, MTRR_MAX_PARTS);
        break;
    case 7:
        a->status[7] = mtrr_due(&q->update, &q->processor, &a->step);
        break;
    case 8:
        a->update = q->update;
        a->processor = q->processor;
        a->status[8] = mtrr_did(&a->update, &a->processor, &a->step);
        break;
    }
}

static struct answers quiet, stormy;

static void clear(struct answers *a)
{
    for (size_t i = 0; i < sizeof *a; i++)
        ((volatile uint8_t *)a)[i] = 0;
}

/* One round: whether the answers are the same. */
static int is_same(struct asked *q)
{
    clear(&quiet);
    clear(&stormy);
    for (uint32_t call = 0; call < CALLS; call++)
        ask(call, q, &quiet);
    for (uint32_t call = 0; call < CALLS; call++) {
        uint64_t here = (uint64_t)__builtin_frame_address(0);
        lowest = here;
        begin_storm();
        ask(call, q, &stormy);
        end_storm();
        if (here - lowest > stacks[call])
            stacks[call] = here - lowest;
    }
    for (size_t i = 0; i < sizeof quiet; i++)
        if (((uint8_t *)&quiet)[i] != ((uint8_t *)&stormy)[i])
            return 0;
    return 1;
}

int run(long count, char **words)
{
    uint64_t wanted = 0, rounds = 0, wrong = 0;
    if (count > 1)
        for (const char *digit = words[1]; *digit; digit++)
            wanted = 10 * wanted + (uint64_t)(*digit - '0');
    else
        wanted = 3000000;
    await_interrupts();
    for (; signals < wanted; rounds++) {
        static struct asked q;
        draw_registers(&q.registers);
        q.page = draw((uint64_t)1 << (q.registers.width - 12));
        q.chunk = draw(2) ? (uint64_t)1 << 52 : 0x10000000;
        q.size = (uint64_t)4096 << draw(20);
        q.update = (struct mtrr_update){(uint32_t)draw(3), 4, (uint32_t)draw(5),
                                        (uint32_t)draw(5)};
        q.processor =
            (struct mtrr_processor){(uint32_t)draw(14), (uint32_t)draw(9), 9,
                                    (uint8_t)draw(2), (uint8_t)draw(2)};
        wrong += !is_same(&q);
    }
    for (uint32_t call = 0; call < CALLS; call++) {
        say(names[call]);
        say(" took at most ");
        say_number(stacks[call]);
        say(" bytes of stack\n");
    }
    say_number(rounds);
    say(" rounds, ");
    say_number(signals);
    say(" signals, ");
    say_number(wrong);
    say(" rounds with a wrong answer\n");
    return wrong != 0;
}

__asm__(".globl _start\n_start:\n\tmovq (%rsp), %rdi\n\tleaq 8(%rsp), "
        "%rsi\n\tandq $-16, %rsp\n\tcall run\n\t"
        "movl %eax, %edi\n\tmovl $60, %eax\n\tsyscall");
