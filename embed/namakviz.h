/* Namakviz, the proved runtime for controllers written in P, for a program in C (C99, x86-64 Linux).
 *
 *     ./namakviz library                  makes target/staticlib/libexports.a
 *     gcc ... -Iembed controller.c target/staticlib/libexports.a
 *
 * A controller loads a text once, starts, and then lends its configuration for each step. embed/examples/override.c is one.
 *
 * The library tests everything that it is handed: every byte of a text, every number of a program and of a configuration, every choice,
 * every length. What does not fit is refused with its answer, and nothing is changed. It keeps nothing between calls, allocates nothing
 * and writes nowhere but where it says; several threads may call it at once, each with a configuration of its own.
 *
 * What no library can test, a program in C sees to itself:
 *   - a pointer is valid, aligned and not null, with length 0 too, and there is as much behind it as its type or its length says
 *     (`rules` is a row of 4,096 bytes, however short the list);
 *   - what is lent to be written does not overlap anything else that is lent to the same call, and nobody else uses it meanwhile;
 *   - what is handed in was written before, if only with zeros.
 *
 * The structs are large (a program 100 KB, a configuration 29 KB): make them static or allocate them. A call uses less than 1 MB of stack,
 * the structs that go over by value among it.
 */
#ifndef NAMAKVIZ_H
#define NAMAKVIZ_H

#include <stddef.h>
#include <stdint.h>
#include <string.h>

/* SIZES */

#define NAMAKVIZ_TEXT 60000                                            /* bytes of a text */
#define NAMAKVIZ_EVENTS 64                                             /* events */
#define NAMAKVIZ_KINDS 16                                              /* machine kinds */
#define NAMAKVIZ_VARIABLES 16                                          /* variables of a kind */
#define NAMAKVIZ_ALL_VARIABLES (NAMAKVIZ_KINDS * NAMAKVIZ_VARIABLES)   /* variables in all */
#define NAMAKVIZ_THIS NAMAKVIZ_VARIABLES                               /* the place of `this` in a room's values, behind the variables */
#define NAMAKVIZ_MSG (NAMAKVIZ_VARIABLES + 1)                          /* the place of `msg` */
#define NAMAKVIZ_ARG (NAMAKVIZ_VARIABLES + 2)                          /* the place of `arg` */
#define NAMAKVIZ_EXPRESSIONS 1024                                      /* expressions */
#define NAMAKVIZ_STATEMENTS 1024                                       /* statements */
#define NAMAKVIZ_PAIRS 15000                                           /* pairs of all `init` lists */
#define NAMAKVIZ_ACTIONS 64                                            /* actions */
#define NAMAKVIZ_STATES 64                                             /* states */
#define NAMAKVIZ_MOVES 4096                                            /* steps, calls and acts */
#define NAMAKVIZ_CHOICES 4096                                          /* choices of a list */
#define NAMAKVIZ_ROOMS 32                                              /* live machines */
#define NAMAKVIZ_STACK 8                                               /* states on a call stack */
#define NAMAKVIZ_QUEUE 16                                              /* pairs in a queue */
#define NAMAKVIZ_ROW 33                                                /* parts of a row */
#define NAMAKVIZ_HEIGHT 32                                             /* nesting height */
#define NAMAKVIZ_STARS 8                                               /* stars of a statement */
#define NAMAKVIZ_LIVE_NUMBERS 65536                                    /* the next live number is at most this */

/* ANSWERS; docs/ANSWERS.md has what each means and what to do. */

enum {
    NAMAKVIZ_DONE = 0,               /* done */
    NAMAKVIZ_TEXT_TOO_LONG = 1,      /* text over 60,000 bytes */
    NAMAKVIZ_NOT_IN_FORM = 2,        /* a line not in the form, or out of order */
    NAMAKVIZ_OUT_OF_RANGE = 3,       /* a number out of sequence or out of range */
    NAMAKVIZ_NOT_THERE = 4,          /* a reference to something absent, or of another kind's */
    NAMAKVIZ_NOT_LOWER = 5,          /* a part not lower than its whole, or named twice */
    NAMAKVIZ_DOUBLED = 6,            /* two transitions, or two actions, for one state and event */
    NAMAKVIZ_EXIT_LEAVES = 7,        /* an exit with raise, return or leave */
    NAMAKVIZ_TOO_HIGH = 8,           /* too high, or too many stars */
    NAMAKVIZ_NO_STATE = 9,           /* a machine kind with no state */
    NAMAKVIZ_ASSERTION_FALSE = 10,   /* assertion false */
    NAMAKVIZ_SEND_TO_UNDEFINED = 11, /* send to the undefined value */
    NAMAKVIZ_SEND_TO_NOT_LIVE = 12,  /* send to a number not live */
    NAMAKVIZ_STACK_EMPTY = 13,       /* call stack empty */
    NAMAKVIZ_NOT_A_BOOL = 14,        /* condition not a bool */
    NAMAKVIZ_WRONG_TYPE = 15,        /* a value of the wrong type */
    NAMAKVIZ_QUEUE_FULL = 16,        /* queue full */
    NAMAKVIZ_STACK_FULL = 17,        /* call stack full */
    NAMAKVIZ_NO_ROOM = 18,           /* no free room, or live numbers spent */
    NAMAKVIZ_UNABLE_TO_STEP = 19,    /* the machine cannot step */
    NAMAKVIZ_NOT_ACCEPTED = 20,      /* what was handed in is not a configuration, or not a program */
    NAMAKVIZ_BUFFER_TOO_SHORT = 21,  /* output buffer shorter than the list */
    NAMAKVIZ_TOOK_NO_STEP = 22       /* a choice before the last took no step */
};

/* RULES */

enum {
    NAMAKVIZ_RULE_ASSIGN = 1,
    NAMAKVIZ_RULE_NEW = 2,
    NAMAKVIZ_RULE_DELETE = 3,
    NAMAKVIZ_RULE_ASSERT = 4,
    NAMAKVIZ_RULE_SEQ = 5,
    NAMAKVIZ_RULE_IF = 6,
    NAMAKVIZ_RULE_WHILE = 7,
    NAMAKVIZ_RULE_SEND = 8,
    NAMAKVIZ_RULE_RAISE = 9,
    NAMAKVIZ_RULE_LEAVE = 10,
    NAMAKVIZ_RULE_RETURN = 11,
    NAMAKVIZ_RULE_DEQUEUE = 12,
    NAMAKVIZ_RULE_STEP = 13,
    NAMAKVIZ_RULE_ACTION = 14,
    NAMAKVIZ_RULE_CALL = 15,
    NAMAKVIZ_RULE_POP1 = 16,
    NAMAKVIZ_RULE_POP2 = 17
};

/* Their names: static const char *const names[] = NAMAKVIZ_RULE_NAMES; names[rule] is the name, names[0] no rule's. */
#define NAMAKVIZ_RULE_NAMES                                                                                                        \
    {                                                                                                                              \
        "", "ASSIGN", "NEW", "DELETE", "ASSERT", "SEQ", "IF", "WHILE", "SEND", "RAISE", "LEAVE", "RETURN", "DEQUEUE", "STEP",      \
            "ACTION", "CALL", "POP1", "POP2"                                                                                       \
    }

/* CHOICES: a choice in a list is one number, 256 times the live number plus the bits. Any number is a choice. */

#define NAMAKVIZ_CHOICE(machine, bits) ((uint32_t)(machine) * 256u + (uint8_t)(bits))
#define NAMAKVIZ_CHOICE_MACHINE(choice) ((uint32_t)(choice) / 256u)
#define NAMAKVIZ_CHOICE_BITS(choice) ((uint8_t)((choice) % 256u))

/* A PROGRAM, as namakviz_load makes it. A controller holds it and need not read it.
 *
 * A table has its count in place 0, or in row 0, and its number n in place n, or in row n. Where several arrays are one table, the count
 * is in the one that names the kinds. crates/tables/specs/Decode.antt has what each number means. */

typedef struct namakviz_program {
    uint8_t event_types[NAMAKVIZ_EVENTS + 1];                       /* the events' types: 0 void, 1 bool, 2 int, 3 event, 4 id */
    uint8_t kinds;                                                  /* how many machine kinds there are */
    uint16_t variable_of[NAMAKVIZ_ALL_VARIABLES + 1];               /* the variables' kinds */
    uint8_t variable_type[NAMAKVIZ_ALL_VARIABLES + 1];              /* and types */
    uint32_t exprs[3 * (NAMAKVIZ_EXPRESSIONS + 1)];                 /* the expressions: rows of kind, x, y */
    uint16_t stmts[5 * (NAMAKVIZ_STATEMENTS + 1)];                  /* the statements: rows of kind, x, y, z, n */
    uint16_t inits[2 * NAMAKVIZ_PAIRS];                             /* the pairs of `init`: variable, expression; no count */
    uint8_t action_of[NAMAKVIZ_ACTIONS + 1];                        /* the actions' kinds */
    uint16_t action_body[NAMAKVIZ_ACTIONS + 1];                     /* and statements */
    uint8_t state_of[NAMAKVIZ_STATES + 1];                          /* the states' kinds, */
    uint16_t state_entry[NAMAKVIZ_STATES + 1];                      /* entry statements */
    uint16_t state_exit[NAMAKVIZ_STATES + 1];                       /* and exit statements */
    uint8_t defers[(NAMAKVIZ_STATES + 1) * (NAMAKVIZ_EVENTS + 1)];  /* at n * 65 + e: not 0 where state n defers event e */
    uint8_t moves[3 * NAMAKVIZ_MOVES];                              /* rows of from, on, to: steps, then calls, then acts; no count */
    size_t steps;                                                   /* how many steps */
    size_t calls;                                                   /* how many calls */
    size_t acts;                                                    /* how many acts */
    uint8_t start;                                                  /* the kind of the first machine */
} namakviz_program;

/* A CONFIGURATION, as namakviz_start makes it and namakviz_step and namakviz_run change it. What is in it is read with namakviz_live and
 * namakviz_machine. A place that is not in use is 0. */

typedef struct namakviz_room {
    uint32_t this;                                    /* the machine's live number; 0: the room is free */
    uint8_t kind;                                     /* its kind */
    size_t depth;                                     /* how many states are on its call stack */
    uint8_t states[NAMAKVIZ_STACK];                   /* these states, the first one first */
    uint8_t maps[NAMAKVIZ_STACK * NAMAKVIZ_EVENTS];   /* for each, 64 places of its map: 0 nothing, 255 deferred, else the action */
    uint64_t values[NAMAKVIZ_VARIABLES + 3];          /* 16 variables, `this`, `msg` and `arg`; read with namakviz_value */
    size_t count;                                     /* how many parts its row has */
    uint16_t parts[NAMAKVIZ_ROW];                     /* the parts, the last one first */
    uint64_t held;                                    /* what is pending: 0 nothing, 1 a return, else the pair of a raise */
    size_t waiting;                                   /* how many pairs wait in its queue */
    uint64_t pairs[NAMAKVIZ_QUEUE];                   /* the pairs, the first one first; read with namakviz_pair */
} namakviz_room;

typedef struct namakviz_config {
    uint32_t next;                        /* the next live number */
    namakviz_room rooms[NAMAKVIZ_ROOMS];  /* the rooms */
} namakviz_config;

/* WHAT THE FUNCTIONS GIVE */

typedef struct namakviz_load_numbers {
    namakviz_program program;            /* the program, where the answer is 0 */
    uint32_t choices[NAMAKVIZ_CHOICES];  /* its choices */
    size_t count;                        /* how many there are */
    uint8_t answer;                      /* 0 to 9 */
    size_t line;                         /* the line at fault, counted from 1; 0 where no single line is */
} namakviz_load_numbers;

typedef struct namakviz_start_numbers {
    namakviz_config config;  /* the start configuration; that of no machine where the answer is not 0 */
    uint8_t answer;          /* 0 or 20 */
} namakviz_start_numbers;

typedef struct namakviz_step_numbers {
    uint8_t answer;  /* 0, 10 to 20 */
    uint8_t rule;    /* the rule that was taken, 1 to 17, where the answer is 0; else 0 */
} namakviz_step_numbers;

typedef struct namakviz_end_numbers {
    uint8_t answer;  /* 0, 3, 10 to 20 */
    size_t place;    /* the place of the refused choice, counted from 1; 0 where none was refused, and at 20 and 3 */
    size_t steps;    /* how many steps were taken */
} namakviz_end_numbers;

typedef struct namakviz_live_numbers {
    uint8_t answer;                     /* 0 or 20 */
    size_t count;                       /* how many machines live */
    uint32_t machines[NAMAKVIZ_ROOMS];  /* their live numbers, by room; 0 behind them */
} namakviz_live_numbers;

typedef struct namakviz_machine_numbers {
    uint8_t answer;                       /* 0, 20, or 19: no such machine lives. All else is 0 then */
    uint8_t kind;                         /* its kind */
    size_t depth;                         /* how many states are on its call stack */
    uint8_t state;                        /* the state on top; 0 where the stack is empty */
    size_t variables;                     /* how many variables it has */
    uint64_t values[NAMAKVIZ_VARIABLES];  /* their values, in the order of their numbers; read with namakviz_value */
    size_t waiting;                       /* how many pairs wait in its queue */
    uint64_t pairs[NAMAKVIZ_QUEUE];       /* the pairs, the first one first; read with namakviz_pair */
} namakviz_machine_numbers;

enum {
    NAMAKVIZ_VALUE_UNDEFINED = 0,
    NAMAKVIZ_VALUE_BOOL = 1,
    NAMAKVIZ_VALUE_INT = 2,
    NAMAKVIZ_VALUE_EVENT = 3,
    NAMAKVIZ_VALUE_ID = 4
};

typedef struct namakviz_value_numbers {
    uint8_t kind;    /* one of the five above */
    int64_t number;  /* 0; 0 or 1; the int; the event's number; the live number */
} namakviz_value_numbers;

typedef struct namakviz_pair_numbers {
    uint32_t event;  /* the event's number */
    uint64_t value;  /* its value; read with namakviz_value */
} namakviz_pair_numbers;

/* THE FUNCTIONS. Live machines are named by their live numbers; any number may be handed in. */

/* Loads a text of `length` bytes. 0: the program and its choices. 1 to 9: nothing is loaded, and the line at fault. */
namakviz_load_numbers namakviz_load(const uint8_t *text, size_t length);

/* The start configuration of a program: one machine, live number 1. 20: the program is not one. */
namakviz_start_numbers namakviz_start(namakviz_program program);

/* One step of a machine. 0: the rule that it took, and the configuration is changed in its place. Else the configuration is as it was. */
namakviz_step_numbers namakviz_step(const namakviz_program *program, namakviz_config *config, uint32_t machine, uint8_t bits);

/* The steps of a list of choices, up to the first that is refused. The configuration becomes that of the steps taken, and their rules
 * are written from the front of `rules`; behind them the row is as it was. 20 and 3 (more than 4,096 choices) come before the first
 * choice, and change nothing. */
namakviz_end_numbers namakviz_run(const namakviz_program *program, namakviz_config *config, const uint32_t *choices, size_t length,
                                  uint8_t (*rules)[NAMAKVIZ_CHOICES]);

/* The same choices with each machine's steps together. 0: the list is written from the front of `out`, which has `places` places;
 * behind it they are as they were. 20, 3, 21 (fewer places than choices) or 22: nothing is written. */
uint8_t namakviz_regroup(namakviz_program program, namakviz_config config, const uint32_t *choices, size_t length, uint32_t *out,
                         size_t places);

/* 0, or 20 where the program is not one or the configuration is none of it. */
uint8_t namakviz_fit(namakviz_program program, namakviz_config config);

/* The live machines of a configuration. */
namakviz_live_numbers namakviz_live(namakviz_program program, namakviz_config config);

/* The machine of a live number: kind, state, variables and queue. */
namakviz_machine_numbers namakviz_machine(namakviz_program program, namakviz_config config, uint32_t machine);

/* The value of a number in `values`; any number is read as one. */
namakviz_value_numbers namakviz_value(uint64_t x);

/* The pair of a number in `pairs`; any number is read as one. */
namakviz_pair_numbers namakviz_pair(uint64_t x);

/* Whether two rooms, or two configurations, are the same, number by number. (memcmp over a whole struct would also compare the bytes
 * between its fields, and these mean nothing.) */
static inline int namakviz_same_room(const namakviz_room *a, const namakviz_room *b)
{
    return a->this == b->this && a->kind == b->kind && a->depth == b->depth && a->count == b->count && a->held == b->held &&
           a->waiting == b->waiting && memcmp(a->states, b->states, sizeof a->states) == 0 &&
           memcmp(a->maps, b->maps, sizeof a->maps) == 0 && memcmp(a->values, b->values, sizeof a->values) == 0 &&
           memcmp(a->parts, b->parts, sizeof a->parts) == 0 && memcmp(a->pairs, b->pairs, sizeof a->pairs) == 0;
}

static inline int namakviz_same_config(const namakviz_config *a, const namakviz_config *b)
{
    int same = a->next == b->next;
    for (size_t k = 0; same && k < NAMAKVIZ_ROOMS; k++) {
        same = namakviz_same_room(&a->rooms[k], &b->rooms[k]);
    }
    return same;
}

#endif
