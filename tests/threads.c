/*
 * The library's calls on several threads at once. Each thread has a fault list and written areas of its own; chain, image and extents are
 * shared. The models alternate. Every round of every thread must come to what the same calls come to on one thread.
 */
#define _POSIX_C_SOURCE 200809L
#include <pthread.h>
#include <stdio.h>
#include <stdlib.h>
#include <string.h>

#include "giruve.h"

enum { THREADS = 8, ROUNDS = 10000, RECORDS = THREADS, DATA = 1000, CCW = GIRUVE_CHAIN_MIN, FIELD = 3, RECORD = FIELD + 8, FAULT = FIELD + 10 };

static uint8_t image[FIELD + 5 + RECORD + RECORDS * (RECORD + DATA)];
static uint8_t chain[RECORDS * CCW];
static uint8_t arguments[1];
static uint8_t extent[GIRUVE_EXTENT];

/* cylinder 411, which model 1 has not */
static const uint8_t of_model_11[GIRUVE_EXTENT] = {0x01, 0x9B, 0, 0, 0x01, 0x9B, 0, 18};

/* All that the calls of a round write and return. */
struct round {
    uint8_t storage[RECORDS * DATA], program[GIRUVE_PROGRAM], restart_arguments[GIRUVE_RESTART_ARGUMENTS], list[GIRUVE_LIST_MAX];
    uint8_t reading[GIRUVE_READING_ANSWER];
    uint8_t cut_storage[RECORDS * DATA], cut_program[GIRUVE_PROGRAM], cut_arguments[GIRUVE_RESTART_ARGUMENTS];
    uint8_t cut[GIRUVE_RUN_ANSWER], recovery[GIRUVE_RECOVERY_ANSWER], restarted[GIRUVE_RUN_ANSWER];
    uint8_t of_model_11, returned[9];
};

/* A thread has its model, its number of faults, from one on, and its own patterns. */
struct thread {
    pthread_t id;
    uint8_t model;
    uint8_t faults[THREADS * FAULT];
    size_t faults_length;
    struct round alone, together;
    int rounds_that_differ;
};

static struct thread threads[THREADS];
static pthread_barrier_t all_are_there;

/* Track 000/00: R0 without data, then the records. A read for each of them. */
static void make_areas(void)
{
    static const uint8_t home_and_r0[] = {0x01, 0, 5, 0, 0, 0, 0, 0, 0x02, 0, 8, 0, 0, 0, 0, 0, 0, 0, 0};
    uint8_t *at = image;
    memcpy(at, home_and_r0, sizeof home_and_r0);
    at += sizeof home_and_r0;
    for (int r = 0; r < RECORDS; r++) {
        const uint8_t head[RECORD] = {0x02, (8 + DATA) / 256, (8 + DATA) % 256, 0, 0, 0, 0, (uint8_t)(r + 1), 0, DATA / 256, DATA % 256};
        const uint8_t read[CCW] = {0x06, 0, (uint8_t)(r * DATA / 256), (uint8_t)(r * DATA % 256),
                                   r + 1 < RECORDS ? 0x40 : 0, 0, DATA / 256, DATA % 256};
        memcpy(at, head, sizeof head);
        memset(at + sizeof head, r + 1, DATA);
        at += sizeof head + DATA;
        memcpy(chain + r * CCW, read, sizeof read);
    }
    for (int t = 0; t < THREADS; t++) {
        for (int r = 0; r <= t; r++) {
            const uint8_t fault[FAULT] = {0x20, 0, 10, 0, 0, 0, 0, (uint8_t)(r + 1), 0, (uint8_t)(t + 3), 0xFF, (uint8_t)t, (uint8_t)r};
            memcpy(threads[t].faults + r * FAULT, fault, sizeof fault);
        }
        threads[t].faults_length = (size_t)(t + 1) * FAULT;
        threads[t].model = t % 2 == 0 ? GIRUVE_MODEL_1 : GIRUVE_MODEL_11;
    }
}

static size_t append(uint8_t *report, size_t end, uint8_t tag, const uint8_t *contents, uint8_t length)
{
    report[end] = tag;
    report[end + 1] = 0;
    report[end + 2] = length;
    memcpy(report + end + FIELD, contents, length);
    return end + FIELD + length;
}

/* A whole reading; a run to its first cut, the recovery from it and the restarted run; the checks. */
static void make_round(const struct thread *t, struct round *r)
{
    uint8_t report[GIRUVE_REPORT_MAX], *returned = r->returned;
    memset(r, 0, sizeof *r);
    *returned++ = giruve_reading(t->model, chain, sizeof chain, arguments, 0, r->storage, sizeof r->storage, image, sizeof image,
                                 t->faults, t->faults_length, extent, sizeof extent, GIRUVE_LIMIT_MAX, r->program, sizeof r->program,
                                 r->restart_arguments, sizeof r->restart_arguments, r->list, sizeof r->list, r->reading, sizeof r->reading);
    *returned++ = giruve_run(t->model, chain, sizeof chain, arguments, 0, r->cut_storage, sizeof r->cut_storage, image, sizeof image,
                             t->faults, t->faults_length, GIRUVE_LIMIT_MAX, r->cut, sizeof r->cut);
    size_t length = append(report, 0, GIRUVE_TAG_SENSE, r->cut + GIRUVE_AT_RUN_SENSE, GIRUVE_SENSE);
    length = append(report, length, GIRUVE_TAG_CSW, r->cut + GIRUVE_AT_RUN_CSW, GIRUVE_CSW);
    length = append(report, length, GIRUVE_TAG_FIRST_CCW, r->cut + GIRUVE_AT_RUN_FIRST_CCW, 2);
    *returned++ = giruve_recover(t->model, chain, sizeof chain, report, length, extent, sizeof extent, r->cut_storage, sizeof r->cut_storage,
                                 r->cut_program, sizeof r->cut_program, r->cut_arguments, sizeof r->cut_arguments,
                                 r->recovery, sizeof r->recovery);
    *returned++ = giruve_run_restart(t->model, chain, sizeof chain, arguments, 0, r->cut_program, sizeof r->cut_program,
                                     r->cut_arguments, sizeof r->cut_arguments, r->cut_storage, sizeof r->cut_storage,
                                     image, sizeof image, t->faults, t->faults_length, r->restarted, sizeof r->restarted);
    *returned++ = giruve_check_image(t->model, image, sizeof image);
    *returned++ = giruve_check_faults(t->model, image, sizeof image, t->faults, t->faults_length);
    *returned++ = giruve_check_extent(t->model, extent, sizeof extent);
    r->of_model_11 = giruve_check_extent(t->model, of_model_11, sizeof of_model_11);
    *returned++ = giruve_check_areas(sizeof chain, 0, sizeof r->storage, sizeof image, t->faults_length, GIRUVE_LIMIT_MAX);
    *returned++ = giruve_check_restart_areas(sizeof r->program, sizeof r->restart_arguments);
}

static void *run_thread(void *own)
{
    struct thread *t = own;
    pthread_barrier_wait(&all_are_there);
    for (int i = 0; i < ROUNDS; i++) {
        make_round(t, &t->together);
        t->rounds_that_differ += memcmp(&t->together, &t->alone, sizeof t->alone) != 0;
    }
    return NULL;
}

/*
 * Whether a round on one thread is one that tells something: everything is read, with as many recoveries as the thread has faults, and cylinder 411
 * is on the pack of model 11 alone.
 */
static int sound(int t)
{
    const struct round *r = &threads[t].alone;
    int right = r->reading[GIRUVE_AT_READING_RECOVERIES + 1] == t + 1;
    right &= r->of_model_11 == (threads[t].model == GIRUVE_MODEL_11 ? GIRUVE_DONE : GIRUVE_REFUSED_EXTENT);
    for (size_t i = 0; i < sizeof r->returned; i++)
        right &= r->returned[i] == GIRUVE_DONE;
    for (int i = 0; i < RECORDS * DATA; i++)
        right &= r->storage[i] == i / DATA + 1;
    return right;
}

int main(void)
{
    int failed = 0;
    make_areas();
    if (pthread_barrier_init(&all_are_there, NULL, THREADS) != 0)
        abort();
    for (int t = 0; t < THREADS; t++) {
        make_round(&threads[t], &threads[t].alone);
        if (!sound(t)) {
            printf("threads: %d does not read as it should on one thread\n", t);
            failed = 1;
        }
    }
    for (int t = 0; t < THREADS; t++)
        if (pthread_create(&threads[t].id, NULL, run_thread, &threads[t]) != 0)
            abort();
    for (int t = 0; t < THREADS; t++) {
        if (pthread_join(threads[t].id, NULL) != 0)
            abort();
        if (threads[t].rounds_that_differ != 0) {
            printf("threads: %d differs in %d of %d rounds\n", t, threads[t].rounds_that_differ, ROUNDS);
            failed = 1;
        }
    }
    if (!failed)
        printf("threads: %d at once, %d rounds each, as on one thread\n", THREADS, ROUNDS);
    return failed;
}
