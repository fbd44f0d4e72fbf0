/*
 * Shared by the benchmarks: a table of rows and columns, its times, and the commands that bench/lib.sh uses.
 *
 *   bench                     checks the results, and prints nanoseconds: the best of 100 rounds, or of ROUNDS; with
 *                             ROUNDS=0 it prints none
 *   bench rows                prints the rows' names, one on each line
 *   bench columns             prints the columns' names, one on each line
 *   bench turns ROW COLUMN N  works N turns of a row and column, for a counter of instructions
 */
#ifndef BSDUDP_TIMER_H
#define BSDUDP_TIMER_H

#include <stdbool.h>
#include <stdint.h>
#include <stdio.h>
#include <stdlib.h>
#include <string.h>
#include <time.h>

enum { TIMER_MOST_COLUMNS = 8, TIMER_MOST_ROWS = 24 };

/* The least time of a measurement, in nanoseconds. */
#define TIMER_SHORTEST 100000.0

typedef struct {
    const char *name;
    /* Works this many turns of `what` in this column. Returns false if something went wrong. Each call repeats one-time
       work. */
    bool (*run)(const void *what, int column, uint64_t turns);
    const void *what;
} Row;

typedef struct {
    const char *what;           /* a turn does, and is timed in nanoseconds */
    const char *const *columns; /* their names */
    int column_count;
    const Row *rows;
    int row_count;
} Table;

/* A value that the compiler must not remove. */
static inline void seen(const void *p)
{
    __asm__ volatile("" : : "r"(p) : "memory");
}

static inline double now_in_ns(void)
{
    struct timespec t;
    clock_gettime(CLOCK_MONOTONIC, &t);
    return (double)t.tv_sec * 1e9 + (double)t.tv_nsec;
}

static inline double time_taken(const Row *row, int column, uint64_t turns)
{
    double start = now_in_ns();
    if (!row->run(row->what, column, turns)) {
        fprintf(stderr, "%s: went wrong\n", row->name);
        exit(1);
    }
    return now_in_ns() - start;
}

static inline double lesser(double a, double b)
{
    return a < b ? a : b;
}

/* The least time of a few runs, because a busy computer slows some. */
static inline double least_time(const Row *row, int column, uint64_t turns)
{
    double least = 1e18;
    for (int round = 0; round < 5; round++)
        least = lesser(least, time_taken(row, column, turns));
    return least;
}

/* Enough turns that they can be timed, and that one-time work takes little of the time. */
static inline uint64_t turns_of(const Row *row, int column)
{
    double once = least_time(row, column, 1);
    uint64_t turns = 8;
    while (least_time(row, column, turns) < 5 * once + TIMER_SHORTEST)
        turns *= 2;
    return turns;
}

/* The times of all rows, or their ratios to the first row, which depend less on the load and on the computer. */
static inline void print_rows(const Table *table, double taken[][TIMER_MOST_COLUMNS], bool ratios)
{
    printf("\n| %s |", ratios ? "times to those of the first row" : table->what);
    for (int c = 0; c < table->column_count; c++)
        printf(" %s |", table->columns[c]);
    printf("\n|---|");
    for (int c = 0; c < table->column_count; c++)
        printf("---:|");
    printf("\n");
    for (int r = 0; r < table->row_count; r++) {
        printf("| %s |", table->rows[r].name);
        for (int c = 0; c < table->column_count; c++)
            printf(" %.*f |", ratios ? 2 : 1, ratios ? taken[r][c] / taken[0][c] : taken[r][c]);
        printf("\n");
    }
}

/*
 * The rounds go over all rows in turn, so that load slows all equally. For each row and column, the best run of N turns
 * is subtracted from the best of 3 N, which removes one-time work.
 */
static inline void print_times(const Table *table)
{
    static double few[TIMER_MOST_ROWS][TIMER_MOST_COLUMNS], many[TIMER_MOST_ROWS][TIMER_MOST_COLUMNS];
    static uint64_t turns[TIMER_MOST_ROWS][TIMER_MOST_COLUMNS];
    int rounds = getenv("ROUNDS") ? atoi(getenv("ROUNDS")) : 100;
    if (rounds < 1)
        return;
    printf("times: the best of %d rounds\n", rounds);
    for (int round = 0; round < rounds; round++)
        for (int c = 0; c < table->column_count; c++)
            for (int r = 0; r < table->row_count; r++) {
                const Row *row = &table->rows[r];
                if (round == 0) {
                    turns[r][c] = turns_of(row, c);
                    few[r][c] = many[r][c] = 1e18;
                }
                few[r][c] = lesser(few[r][c], time_taken(row, c, turns[r][c]));
                many[r][c] = lesser(many[r][c], time_taken(row, c, 3 * turns[r][c]));
            }
    for (int r = 0; r < table->row_count; r++)
        for (int c = 0; c < table->column_count; c++)
            many[r][c] = (many[r][c] - few[r][c]) / (2.0 * (double)turns[r][c]);
    print_rows(table, many, false);
    if (table->row_count > 1)
        print_rows(table, many, true);
}

static inline int work_turns(const Table *table, const char *row, const char *column, uint64_t turns)
{
    for (int r = 0; r < table->row_count; r++)
        for (int c = 0; c < table->column_count; c++)
            if (!strcmp(row, table->rows[r].name) && !strcmp(column, table->columns[c]))
                return table->rows[r].run(table->rows[r].what, c, turns) ? 0 : 1;
    return 2;
}

/* The program, after its checks. */
static inline int bench_main(int argc, char **argv, const Table *table)
{
    if (argc == 1)
        print_times(table);
    else if (argc == 2 && !strcmp(argv[1], "rows"))
        for (int r = 0; r < table->row_count; r++)
            puts(table->rows[r].name);
    else if (argc == 2 && !strcmp(argv[1], "columns"))
        for (int c = 0; c < table->column_count; c++)
            puts(table->columns[c]);
    else if (argc == 5 && !strcmp(argv[1], "turns"))
        return work_turns(table, argv[2], argv[3], strtoull(argv[4], NULL, 10));
    else
        return 2;
    return 0;
}

/* The bytes that the benchmarks sum, copy and send. */
static inline void fill_bytes(uint8_t *bytes, size_t len)
{
    for (size_t at = 0; at < len; at++)
        bytes[at] = (uint8_t)(at * 7 + at / 256 + 3);
}

#define COUNT_OF(array) ((int)(sizeof(array) / sizeof *(array)))

#endif
