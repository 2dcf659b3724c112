/* The library that is measured: each method with each queue, the whole table in its own order, and reading alone. */
#include "../bindings/c/firnolvag.h"
#include "protocol.h"

static const struct plan_file *plan;
static size_t places;
static struct table table;

static void load(const struct plan_file *file)
{
    plan = file;
    places = stations_of(file) * stations_of(file);
}

static const struct table *tell(void)
{
    return &table;
}

static void expect_accepted(uint8_t answer)
{
    if (answer != FIRNOLVAG_ACCEPTED)
        stop("the library refuses a plan");
}

static void work_by(enum firnolvag_method method, enum firnolvag_queue queue)
{
    uint64_t facts[5];
    expect_accepted(firnolvag_table_by(plan->bytes, plan->len, (uint8_t)method, (uint8_t)queue, table.costs, places,
                                       table.predecessors, places, facts, 5));
}

static void plain_heap(void) { work_by(FIRNOLVAG_PLAIN, FIRNOLVAG_HEAP); }
static void reuse_heap(void) { work_by(FIRNOLVAG_REUSE, FIRNOLVAG_HEAP); }
static void prune_heap(void) { work_by(FIRNOLVAG_PRUNE, FIRNOLVAG_HEAP); }
static void plain_shelf(void) { work_by(FIRNOLVAG_PLAIN, FIRNOLVAG_SHELF); }
static void reuse_shelf(void) { work_by(FIRNOLVAG_REUSE, FIRNOLVAG_SHELF); }
static void prune_shelf(void) { work_by(FIRNOLVAG_PRUNE, FIRNOLVAG_SHELF); }

static void whole(void)
{
    uint64_t facts[5];
    expect_accepted(firnolvag_table(plan->bytes, plan->len, table.costs, places, table.predecessors, places, facts, 5));
}

static void reading(void)
{
    uint64_t facts[5];
    expect_accepted(firnolvag_sound(plan->bytes, plan->len, facts, 5));
}

static const struct contestant contestants[] = {
    {"plain/heap", plain_heap},   {"reuse/heap", reuse_heap},   {"prune/heap", prune_heap}, {"plain/shelf", plain_shelf},
    {"reuse/shelf", reuse_shelf}, {"prune/shelf", prune_shelf}, {"whole", whole},           {"reading", reading},
};

int main(void)
{
    static const struct group group = {"firnolvag", contestants, sizeof contestants / sizeof contestants[0], load, tell};
    return serve(&group);
}
