/*
 * Updates of the range registers of all processors, each processor a thread
 * and its registers an array: every step is mtrr_due's, and mtrr_did keeps
 * the books. To copy it, give `carry_out` real instructions, `lock` a
 * spinlock, and start `attend` on each processor by an interrupt.
 *
 *     rendezvous [UPDATES [PROCESSORS]]
 *
 * Runs 10,000 updates on 4 processors unless told otherwise. One in five is
 * cancelled at some point before its go, by a thread that doesn't wait. After
 * each one that went through, every processor has the goal's registers and is
 * back as it was; after each cancelled one, nothing has changed. While one
 * processor is between the barriers no other may run.
 */
#define _XOPEN_SOURCE 600
#include <pthread.h>
#include <sched.h>
#include <stdio.h>
#include <stdlib.h>
#include <string.h>

#include "mtrr.h"

#define MAX_PROCESSORS 16
#define REGISTERS 9 /* three pairs, PAT, default type */
#define ENABLE 0x800u

/* The state of a processor that an update changes. */
struct machine {
    uint64_t registers[REGISTERS];
    int interrupts, pge, cd, caches_flushed, tlbs_flushed;
    unsigned steps;
};

static struct {
    pthread_mutex_t mutex; /* of the books */
    struct mtrr_update update;
    struct mtrr_processor processors[MAX_PROCESSORS];
} books = {.mutex = PTHREAD_MUTEX_INITIALIZER};

static struct machine machines[MAX_PROCESSORS];
static uint64_t goal[REGISTERS];
static uint32_t processors = 4;
static pthread_barrier_t between; /* of the test, not of the update */
static long faults;

static void fault(const char *what, uint32_t k)
{
    __atomic_add_fetch(&faults, 1, __ATOMIC_SEQ_CST);
    fprintf(stderr, "processor %u: %s\n", (unsigned)k, what);
}

static int is_changing(uint32_t phase)
{
    return phase >= MTRR_PASSED && phase <= MTRR_RESTORED;
}

static void lock(void)
{
    pthread_mutex_lock(&books.mutex);
}

static void unlock(void)
{
    pthread_mutex_unlock(&books.mutex);
}

/* What a processor does for a step. The barriers' steps are mtrr_did's alone.
 */
static void carry_out(struct machine *m, const struct mtrr_step *step,
                      uint32_t k)
{
    m->steps++;
    switch (step->number) {
    case MTRR_TAKE:
        m->interrupts = 0;
        break;
    case MTRR_LEAVE:
    case MTRR_RELEASE:
        m->interrupts = 1;
        break;
    case MTRR_SET_NO_FILL:
        m->cd = 1;
        break;
    case MTRR_FLUSH_CACHES:
        if (!m->cd)
            fault("flushes while lines are filled", k);
        m->caches_flushed++;
        break;
    case MTRR_FLUSH_TLB:
        m->pge = 0;
        m->tlbs_flushed++;
        break;
    case MTRR_DISABLE:
        m->registers[REGISTERS - 1] &= ~(uint64_t)ENABLE;
        break;
    case MTRR_WRITE:
        if (!m->cd || (m->registers[REGISTERS - 1] & ENABLE))
            fault("writes while ranges or caches are on", k);
        m->registers[step->place] = goal[step->place];
        break;
    case MTRR_ENABLE:
        m->registers[REGISTERS - 1] = goal[REGISTERS - 1];
        break;
    case MTRR_SET_NORMAL:
        m->cd = 0;
        break;
    case MTRR_RESTORE_PGE:
        m->pge = 1;
        break;
    default:
        break;
    }
}

/* No other processor runs while one changes its registers. Under the lock. */
static void look_around(void)
{
    uint32_t changing = 0, running = 0;
    for (uint32_t k = 0; k < processors; k++) {
        changing += is_changing(books.processors[k].phase);
        running += books.processors[k].phase == MTRR_RUNNING;
    }
    if (changing && running)
        fault("one runs while another changes its registers", running);
}

/* A processor's part in an update, from the interrupt to its return. */
static void attend(uint32_t k)
{
    struct mtrr_processor *me = &books.processors[k];
    for (;;) {
        struct mtrr_step step;
        lock();
        uint32_t answer = mtrr_due(&books.update, me, &step);
        int is_through = me->finished || (me->phase == MTRR_RUNNING &&
                                          books.update.word == MTRR_CANCELLED);
        unlock();
        if (answer == MTRR_WAITS && is_through)
            return;
        if (answer == MTRR_WAITS) {
            sched_yield();
            continue;
        }
        if (answer != MTRR_DONE) {
            fault("the books are wrong", k);
            return;
        }
        carry_out(&machines[k], &step, k);
        lock();
        uint32_t booked = mtrr_did(&books.update, me, &step);
        look_around();
        unlock();
        /* cancelled since: what was carried out is taken back, and the books
         * say what is due now */
        if (booked != MTRR_DONE && step.number == MTRR_TAKE)
            machines[k].interrupts = 1;
        if (booked != MTRR_DONE && step.number != MTRR_TAKE &&
            step.number != MTRR_ARRIVE)
            fault("a step was lost", k);
    }
}

/* The coordinator's word, unless there is one. */
static int say(uint32_t word)
{
    lock();
    int is_first = books.update.word == MTRR_NOTHING_YET;
    if (is_first)
        books.update.word = word;
    unlock();
    return is_first;
}

static uint32_t draw(uint64_t *seed)
{
    *seed = *seed * 6364136223846793005u + 1442695040888963407u;
    return (uint32_t)(*seed >> 33);
}

static void begin(uint64_t *seed)
{
    books.update.word = MTRR_NOTHING_YET;
    books.update.processors = processors;
    books.update.arrived = books.update.arrived_again = 0;
    for (uint32_t k = 0; k < processors; k++) {
        struct mtrr_processor *p = &books.processors[k];
        p->phase = MTRR_RUNNING;
        p->place = 0;
        p->registers = REGISTERS;
        p->self_snoop = (uint8_t)(k % 3 == 2);
        p->finished = 0;
        machines[k].steps = 0;
        machines[k].caches_flushed = machines[k].tlbs_flushed = 0;
    }
    for (int i = 0; i < REGISTERS; i++)
        goal[i] = draw(seed);
    goal[REGISTERS - 1] |= ENABLE;
}

/* What an update left. */
static void look(int was_given, const uint64_t before[][REGISTERS])
{
    for (uint32_t k = 0; k < processors; k++) {
        const struct machine *m = &machines[k];
        const uint64_t *wanted = was_given ? goal : before[k];
        if (memcmp(m->registers, wanted, sizeof goal) != 0)
            fault(was_given ? "has other registers than the goal"
                            : "has changed, though the update was cancelled",
                  k);
        if (!m->interrupts || !m->pge || m->cd)
            fault("isn't back as it was", k);
        if (was_given &&
            m->steps != 14u + REGISTERS - 1 - books.processors[k].self_snoop)
            fault("made another number of steps", k);
        if (was_given &&
            (m->tlbs_flushed != 2 ||
             m->caches_flushed != 2 - books.processors[k].self_snoop))
            fault("flushed another number of times", k);
    }
}

static long updates = 10000;

static void *processor(void *number)
{
    uint32_t k = *(const uint32_t *)number;
    for (long n = 0; n < updates; n++) {
        pthread_barrier_wait(&between);
        attend(k);
        pthread_barrier_wait(&between);
    }
    return NULL;
}

int main(int count, char **words)
{
    if (count > 1)
        updates = strtol(words[1], NULL, 10);
    if (count > 2)
        processors = (uint32_t)strtoul(words[2], NULL, 10);
    if (updates < 1 || processors < 1 || processors > MAX_PROCESSORS)
        return 2;
    static uint64_t before[MAX_PROCESSORS][REGISTERS];
    static uint32_t numbers[MAX_PROCESSORS];
    pthread_t threads[MAX_PROCESSORS];
    uint64_t seed = 1;
    long given = 0;
    pthread_barrier_init(&between, NULL, processors + 1);
    for (uint32_t k = 0; k < processors; k++) {
        machines[k].interrupts = machines[k].pge = 1;
        machines[k].registers[REGISTERS - 1] = ENABLE;
        numbers[k] = k;
        if (pthread_create(&threads[k], NULL, processor, &numbers[k]) != 0)
            return 70;
    }
    for (long n = 0; n < updates; n++) {
        begin(&seed);
        for (uint32_t k = 0; k < processors; k++)
            memcpy(before[k], machines[k].registers, sizeof goal);
        uint32_t word = draw(&seed) % 5 == 0 ? MTRR_CANCELLED : MTRR_GO;
        uint32_t pauses = draw(&seed) % 8;
        pthread_barrier_wait(&between);
        while (pauses-- > 0)
            sched_yield();
        given += say(word) && word == MTRR_GO;
        pthread_barrier_wait(&between);
        look(word == MTRR_GO, (const uint64_t(*)[REGISTERS])before);
    }
    for (uint32_t k = 0; k < processors; k++)
        pthread_join(threads[k], NULL);
    printf("%ld updates on %u processors: %ld went through, %ld were "
           "cancelled, %ld faults\n",
           updates, (unsigned)processors, given, updates - given, faults);
    return faults != 0;
}
