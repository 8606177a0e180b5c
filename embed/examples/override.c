/* The temperature override (docs/stories/OVERRIDE.md) as a controller in C: the coefficient waits during the settling call, and is taken
 * after the return.
 *
 *     override sessions/story-override.txt
 *
 * override.rs does the same in Rust, and both write what override.out has. */

#include <stdio.h>
#include <stdlib.h>

#include "namakviz.h"

static const char *const rule_names[] = NAMAKVIZ_RULE_NAMES;

/* Large, so not on the stack. */
static uint8_t text[NAMAKVIZ_TEXT + 1];
static namakviz_load_numbers loaded;
static namakviz_start_numbers started;
static namakviz_config config, before, other;
static uint8_t rules[NAMAKVIZ_CHOICES];
static uint32_t regrouped[NAMAKVIZ_CHOICES];

/* The steps after which the configuration is read. */
static const struct moment {
    size_t step;
    const char *what;
} moments[] = {
    {11, "the clock has called Settling"},
    {13, "the coefficient has come, and waits"},
    {16, "what came later is taken; the coefficient waits on"},
    {21, "Settling has returned; Evaluate itself holds the coefficient back"},
    {26, "in Apply nothing holds it back"},
    {27, "it is taken"},
    {30, "the shift is the new one"},
};

/* The step after which the clock, machine 2, is chosen though it cannot step. */
enum { HELD = 13, CLOCK = 2 };

static void stop_unless_done(const char *what, uint8_t answer)
{
    if (answer != NAMAKVIZ_DONE) {
        fprintf(stderr, "override: %s: answer %d\n", what, answer);
        exit(1);
    }
}

/* Reads the file whole, up to one byte more than a text may have. */
static size_t read_text(const char *path)
{
    FILE *file = fopen(path, "rb");
    if (file == NULL) {
        perror(path);
        exit(2);
    }
    size_t length = fread(text, 1, sizeof text, file);
    fclose(file);
    return length;
}

static void print_value(uint64_t number)
{
    namakviz_value_numbers value = namakviz_value(number);
    switch (value.kind) {
    case NAMAKVIZ_VALUE_BOOL:
        printf("%s", value.number != 0 ? "true" : "false");
        break;
    case NAMAKVIZ_VALUE_INT:
        printf("%lld", (long long)value.number);
        break;
    case NAMAKVIZ_VALUE_EVENT:
        printf("event%lld", (long long)value.number);
        break;
    case NAMAKVIZ_VALUE_ID:
        printf("id%lld", (long long)value.number);
        break;
    default:
        printf("undefined");
    }
}

static void print_machine(uint32_t number)
{
    namakviz_machine_numbers machine = namakviz_machine(loaded.program, config, number);
    stop_unless_done("machine", machine.answer);
    printf("machine=%u kind=%d depth=%zu state=%d variables=", number, machine.kind, machine.depth, machine.state);
    for (size_t x = 0; x < machine.variables; x++) {
        printf("%s", x > 0 ? "," : "");
        print_value(machine.values[x]);
    }
    printf("%s queue=", machine.variables == 0 ? "none" : "");
    for (size_t place = 0; place < machine.waiting; place++) {
        namakviz_pair_numbers pair = namakviz_pair(machine.pairs[place]);
        printf("%s%u:", place > 0 ? "," : "", pair.event);
        print_value(pair.value);
    }
    printf("%s\n", machine.waiting == 0 ? "none" : "");
}

static void print_live_machines(void)
{
    namakviz_live_numbers live = namakviz_live(loaded.program, config);
    stop_unless_done("live", live.answer);
    for (size_t place = 0; place < live.count; place++) {
        print_machine(live.machines[place]);
    }
}

static const char *whether_same(const namakviz_config *a, const namakviz_config *b)
{
    return namakviz_same_config(a, b) ? "yes" : "no";
}

/* A step that is refused, and leaves the configuration as it was. */
static void try_the_clock(void)
{
    before = config;
    namakviz_step_numbers stepped = namakviz_step(&loaded.program, &config, CLOCK, 0);
    printf("chosen now: machine=%d answer=%d same=%s\n", CLOCK, stepped.answer, whether_same(&config, &before));
}

static void step_through_the_choices(void)
{
    const struct moment *moment = moments;
    for (size_t n = 1; n <= loaded.count; n++) {
        uint32_t choice = loaded.choices[n - 1];
        uint32_t machine = NAMAKVIZ_CHOICE_MACHINE(choice);
        namakviz_step_numbers stepped = namakviz_step(&loaded.program, &config, machine, NAMAKVIZ_CHOICE_BITS(choice));
        stop_unless_done("step", stepped.answer);
        printf("n=%zu machine=%u rule=%s\n", n, machine, rule_names[stepped.rule]);
        if (moment < moments + sizeof moments / sizeof *moments && moment->step == n) {
            printf("%s:\n", moment->what);
            print_live_machines();
            moment++;
        }
        if (n == HELD) {
            try_the_clock();
        }
    }
}

/* A list run as a whole from the start, to the same end as step by step. */
static void run_list(const char *what, const uint32_t *choices)
{
    other = started.config;
    namakviz_end_numbers end = namakviz_run(&loaded.program, &other, choices, loaded.count, &rules);
    printf("%s: end=%d steps=%zu same=%s\n", what, end.answer, end.steps, whether_same(&other, &config));
}

static void regroup_the_choices(void)
{
    stop_unless_done("regroup",
                     namakviz_regroup(loaded.program, started.config, loaded.choices, loaded.count, regrouped, NAMAKVIZ_CHOICES));
    printf("regrouped:");
    for (size_t place = 0; place < loaded.count; place++) {
        printf(" %u", NAMAKVIZ_CHOICE_MACHINE(regrouped[place]));
    }
    printf("\n");
}

/* A configuration with a number that is none of it is told from a good one, and is left as it is. */
static void damage_the_configuration(void)
{
    other = config;
    other.rooms[1].states[0] = 99;
    before = other;
    namakviz_step_numbers stepped = namakviz_step(&loaded.program, &other, CLOCK, 0);
    printf("fit: %d damaged: %d step: %d same=%s\n", namakviz_fit(loaded.program, config), namakviz_fit(loaded.program, other),
           stepped.answer, whether_same(&other, &before));
}

int main(int argc, char **argv)
{
    if (argc != 2) {
        fprintf(stderr, "usage: override TEXT\n");
        return 2;
    }
    loaded = namakviz_load(text, read_text(argv[1]));
    stop_unless_done("load", loaded.answer);
    started = namakviz_start(loaded.program);
    stop_unless_done("start", started.answer);
    config = started.config;
    printf("start:\n");
    print_live_machines();
    step_through_the_choices();
    run_list("run", loaded.choices);
    regroup_the_choices();
    run_list("run regrouped", regrouped);
    damage_the_configuration();
    return 0;
}
