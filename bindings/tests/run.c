/* A whole run in C, to copy from. Of each job it prints what program `shape` prints: floats as their bits.
 *
 *     cc -std=c11 -I bindings/include bindings/tests/run.c target/staticlib/libcapi.a -o run && ./run
 *
 * The library keeps nothing between calls: state and lists are the caller's, and each call gets them as the last one
 * left them. docs/API.md has the lists' lengths, and what each refusal leaves. */
#include "sokdrib.h"

#include <inttypes.h>
#include <stdio.h>
#include <stdlib.h>

enum { REFUSED, SOLID, ROUND, STOP }; /* the replies */
enum { GAVE, FAILED, HALTED };        /* what the solver said */
enum { OFF, EARLY, FULL };            /* the goal's sharpening */
enum { SHORT = 14 };                  /* the refusal that a longer list may cure */
enum { WORDS = 1040 };                /* the places that `bits` needs */
static const char *const STOPS[] = {"Settled", "LevelledOff", "Limit", "Budget", "Stopped"};

typedef struct {
    SokdribRunGoal goal;
    size_t elements, planes;
    const double *volumes, (*centroids)[3];
    const bool *passive;
    const double (*mirrors)[6]; /* of each plane a point, then the normal */
    const double *weights;      /* the solver's own */
} Job;

/* The solver is the caller's: each element's energy at the densities asked for. This one stands in for a finite-element
 * analysis. */
static void solve(const Job *job, const double *density, double *energies) {
    for (size_t e = 0; e < job->elements; e++)
        energies[e] = job->weights[e] / (2.0 * sokdrib_modulus(sokdrib_level_of(density[e]), 1.0));
}

/* A list of n places, all zero. */
static void *list(size_t n, size_t size) {
    void *places = calloc(n ? n : 1, size);
    if (!places) exit(2);
    return places;
}

static void print_bits(double x) { printf(" %016" PRIX64, sokdrib_to_bits(x)); }

static void run(const Job *job) {
    const size_t n = job->elements, room = job->goal.max_iterations;
    /* What the run keeps: the filter's table, the design, the densities asked for, those of the last record's round,
     * the history. */
    uint32_t *starts = list(n + 1, sizeof *starts), *near_;
    double *coef, *design = list(n, sizeof *design), *density = list(n, sizeof *density), *last = list(n, sizeof *last);
    SokdribRunRecord *history = list(room, sizeof *history);
    /* What the opening works in, and what an answer works in. */
    uint64_t(*cell)[3] = list(n, sizeof *cell), *bits = list(WORDS, sizeof *bits);
    uint32_t *order = list(n, sizeof *order), *first = list(n + 1, sizeof *first);
    uint32_t *stamp = list(n, sizeof *stamp), *found = list(n, sizeof *found);
    double(*sorted)[3] = list(n, sizeof *sorted), *weight = list(n, sizeof *weight);
    double *free_ = list(n, sizeof *free_), *slope = list(n, sizeof *slope), *spare = list(n, sizeof *spare);
    double *dc = list(n, sizeof *dc), *dv = list(n, sizeof *dv);
    double *energies = list(n, sizeof *energies);

    /* The opening, on the fresh state. How many entries the filter's table has shows as it is built: where there is no
     * room for them the run is opened again with more. */
    SokdribRunReturned returned = {0};
    size_t entries = n;
    for (;; entries *= 2) {
        near_ = list(entries, sizeof *near_);
        coef = list(entries, sizeof *coef);
        returned = sokdrib_open(
            room, returned.state, job->goal, false, job->volumes, n, job->centroids, n, job->passive, n,
            job->mirrors, job->planes,
            starts, n + 1, near_, entries, coef, entries, design, n, density, n, last, n,
            cell, n, order, n, first, n + 1, sorted, n, stamp, n, weight, n, found, n, bits, WORDS);
        if (returned.reply != REFUSED || returned.number != SHORT || entries >= n * n) break;
        free(near_);
        free(coef);
    }

    /* Question and answer until it stops. Nothing asks it to (false), and 0 of 1 milliseconds never run out. */
    const SokdribRunHeard heard = {.said = GAVE, .flag = false, .elapsed = 0, .allowed = 1};
    while (returned.reply == SOLID || returned.reply == ROUND) {
        solve(job, density, energies);
        SokdribRunStep step = sokdrib_answer(
            room, returned.state, heard, energies, n, job->volumes, n, job->passive, n,
            starts, n + 1, near_, entries, coef, entries, design, n, density, n, last, n,
            free_, n, slope, n, spare, n, dc, n, dv, n);
        if (step.at < room) history[step.at] = step.entry;
        returned = step.returned;
    }

    if (returned.reply == REFUSED) {
        printf("refused %zu\n", returned.number);
    } else {
        printf("solid");
        print_bits(returned.state.solid_compliance);
        for (size_t i = 0; i < returned.state.rounds; i++) {
            SokdribRunRecord r = history[i];
            double numbers[] = {r.compliance, r.fraction, r.change, r.sharpness, r.grey};
            printf("\nround %zu", r.number);
            for (size_t k = 0; k < 5; k++) print_bits(numbers[k]);
            printf(" %zu", r.passes);
        }
        printf("\nstop %s\n", STOPS[returned.number]);
        for (size_t e = 0; e < n; e++) {
            printf("%zu", e + 1);
            print_bits(last[e]);
            printf("\n");
        }
    }
    void *lists[] = {starts, near_, coef, design, density, last, history, cell, order, first, sorted,
                     stamp, weight, found, bits, free_, slope, spare, dc, dv, energies};
    for (size_t i = 0; i < sizeof lists / sizeof *lists; i++) free(lists[i]);
}

int main(void) {
    /* Document 01's worked example: two elements far apart, the first held solid. */
    Job worked = {
        .goal = {.fraction = 0.75, .radius = 1.0, .sharpen = OFF, .max_iterations = 1}, .elements = 2,
        .volumes = (const double[]){1.0, 1.0},
        .centroids = (const double[][3]){{0.0, 0.0, 0.0}, {10.0, 0.0, 0.0}},
        .passive = (const bool[]){true, false},
        .weights = (const double[]){1.0, 0.0},
    };
    run(&worked);

    /* Eight elements, symmetric about y = 0, sharpened. */
    Job sharpened = {
        .goal = {.fraction = 0.5, .radius = 1.5, .sharpen = EARLY, .max_iterations = 60}, .elements = 8, .planes = 1,
        .volumes = (const double[]){1.0, 1.0, 1.25, 1.25, 0.75, 0.75, 1.0, 1.0},
        .centroids = (const double[][3]){{0.5, -0.5, 0.0}, {0.5, 0.5, 0.0}, {1.5, -0.5, 0.0}, {1.5, 0.5, 0.0},
                                         {2.5, -0.5, 0.0}, {2.5, 0.5, 0.0}, {3.5, -0.5, 0.0}, {3.5, 0.5, 0.0}},
        .passive = (const bool[]){true, true, false, false, false, false, false, false},
        .mirrors = (const double[][6]){{0.0, 0.0, 0.0, 0.0, 1.0, 0.0}},
        .weights = (const double[]){4.0, 4.0, 3.0, 2.5, 2.0, 2.0, 0.5, 1.0},
    };
    run(&sharpened);

    /* The same with full stages: exactly 20 rounds at each steepness below 16. */
    sharpened.goal.sharpen = FULL;
    sharpened.goal.max_iterations = 85;
    run(&sharpened);

    /* There is no such sharpening: 20. */
    sharpened.goal.sharpen = 3;
    run(&sharpened);

    /* Half of it is held, so a share of 0.1 has no room: 7. */
    worked.goal.fraction = 0.1;
    run(&worked);
    return 0;
}
