/*
 * How a group of contestants talks with bench/run. It first says two lines: its title, and the names of its contestants. Then
 * it is asked line by line, and answers each with one line:
 *
 *   load PLAN                read this plan file                                  -> loaded
 *   run CONTESTANT CALLS     let it work the whole table, so many times           -> the least processor time, in nanoseconds
 *   dump CONTESTANT TABLE    write the table it works: n * n costs of 64 bits,    -> dumped
 *                            then n * n predecessors of 16 bits, if it tells any,
 *                            all in the machine's byte order
 */
#ifndef BENCH_PROTOCOL_H
#define BENCH_PROTOCOL_H

#include <stddef.h>
#include <stdint.h>
#include <stdio.h>
#include <stdlib.h>
#include <string.h>
#include <time.h>

enum { MOST_STATIONS = 256, MOST_LINKS = 4096, HEADER = 10, RECORD = 12 };
enum { MOST_BYTES = HEADER + MOST_LINKS * RECORD, MOST_PLACES = MOST_STATIONS * MOST_STATIONS };

struct plan_file {
    size_t len;
    uint8_t bytes[MOST_BYTES];
};

/* A table of costs and predecessors, row after row. */
struct table {
    uint64_t costs[MOST_PLACES];
    uint16_t predecessors[MOST_PLACES];
};

struct contestant {
    const char *name;
    void (*run)(void); /* this is what is timed */
};

struct group {
    const char *title;
    const struct contestant *contestants;
    size_t count;
    void (*load)(const struct plan_file *file);
    const struct table *(*tell)(void); /* the table of the last run */
};

static inline void stop(const char *why)
{
    fprintf(stderr, "%s\n", why);
    exit(1);
}

static inline size_t big_endian_16(const uint8_t *bytes)
{
    return (size_t)bytes[0] << 8 | bytes[1];
}

static inline size_t stations_of(const struct plan_file *file)
{
    return big_endian_16(file->bytes + 6);
}

static inline void read_file(const char *path, struct plan_file *file)
{
    FILE *in = fopen(path, "rb");
    if (in == NULL)
        stop("a plan file cannot be opened");
    file->len = fread(file->bytes, 1, sizeof file->bytes, in);
    fclose(in);
}

static inline void write_table(const char *path, const struct table *table, size_t stations)
{
    size_t places = stations * stations;
    FILE *out = fopen(path, "wb");
    if (out == NULL)
        stop("a table cannot be written");
    fwrite(table->costs, sizeof table->costs[0], places, out);
    fwrite(table->predecessors, sizeof table->predecessors[0], places, out);
    fclose(out);
}

static inline uint64_t processor_time(void)
{
    struct timespec now;
    clock_gettime(CLOCK_PROCESS_CPUTIME_ID, &now);
    return (uint64_t)now.tv_sec * 1000000000 + (uint64_t)now.tv_nsec;
}

static inline uint64_t least_time(void (*run)(void), unsigned long calls)
{
    uint64_t least = UINT64_MAX;
    while (calls-- > 0) {
        uint64_t start = processor_time();
        run();
        uint64_t taken = processor_time() - start;
        if (taken < least)
            least = taken;
    }
    return least;
}

static inline const struct contestant *find(const struct group *group, const char *name)
{
    for (size_t i = 0; i < group->count; i++)
        if (strcmp(group->contestants[i].name, name) == 0)
            return &group->contestants[i];
    stop("there is no such contestant");
    return NULL;
}

static inline void greet(const struct group *group)
{
    printf("%s\n", group->title);
    for (size_t i = 0; i < group->count; i++)
        printf("%s%s", i == 0 ? "" : " ", group->contestants[i].name);
    printf("\n");
    fflush(stdout);
}

static inline void answer(const struct group *group, struct plan_file *file, char *line)
{
    const char *verb = strtok(line, " \n"), *first = strtok(NULL, " \n"), *second = strtok(NULL, " \n");
    if (verb != NULL && first != NULL && strcmp(verb, "load") == 0) {
        read_file(first, file);
        group->load(file);
        printf("loaded\n");
    } else if (second != NULL && strcmp(verb, "run") == 0) {
        uint64_t least = least_time(find(group, first)->run, strtoul(second, NULL, 10));
        printf("%llu\n", (unsigned long long)least);
    } else if (second != NULL && strcmp(verb, "dump") == 0) {
        find(group, first)->run();
        write_table(second, group->tell(), stations_of(file));
        printf("dumped\n");
    } else {
        stop("a line is not understood");
    }
    fflush(stdout);
}

static inline int serve(const struct group *group)
{
    static struct plan_file file;
    char line[4096];
    greet(group);
    while (fgets(line, sizeof line, stdin) != NULL)
        answer(group, &file, line);
    return 0;
}

#endif
