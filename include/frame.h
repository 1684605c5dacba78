/* The C interface of the library, for C11 and C++11 or later on x86-64 Linux: a run event by event, recording and replay, the
 * histogram of phase loads, the schedule maker, work and span, and at the end the questions about a tree. Link libframe.a, which
 * bin/library makes; it needs memcpy and memset alone. docs/FORMAT.md has the formats of tree, events, trace, log, run list,
 * histogram and chain, and the rules; examples/frame.c is an example.
 *
 * What holds of every call:
 * - Any bytes and any numbers are safe. A call answers or refuses, and always ends.
 * - A pointer and the length after it, in bytes, are one buffer of the caller's. A pointer of length 0 may be NULL.
 * - A buffer that is not const overlaps no other buffer of the same call. A call writes to no other memory of the caller's.
 * - A refusal is a number, FRAME_REFUSED_.., and a position, which is that of a record where the refusal names one and else 0.
 *   All other results are 0 then, but for the state that frame_event and the histogram that frame_histogram_add hand back, and no
 *   byte of a buffer or of a lent state has changed.
 * - A call allocates nothing and keeps nothing: there is no global state. Calls may run at the same time in several threads where
 *   none writes a buffer that another one uses; a tree is only read, so one may serve them all.
 * - A call uses less than FRAME_STACK_BYTES of stack. Record, replay and the histogram come near to that, the others do not. */
#ifndef FRAME_H
#define FRAME_H

#include <assert.h>
#include <stddef.h>
#include <stdint.h>

#ifdef __cplusplus
extern "C" {
#endif

/* Rises with each change of this header that a caller can see; docs/FORMAT.md lists them. 1 was the header without a version and
 * without a worker count. */
#define FRAME_VERSION 6

/* Limits. */
#define FRAME_MOST_STEPS 4095   /* of a tree, which has a record for each */
#define FRAME_MOST_OPEN 64      /* tasks open together, the root counted */
#define FRAME_WORKERS 16        /* the most of a run; a run of w workers has 0 to w - 1 */
#define FRAME_CLASSES 16        /* of steps, 0 to 15: byte 1 of a tree record, no part of scheduling */
#define FRAME_MOST_EVENTS 8192  /* of a recording */
#define FRAME_MOST_STEALS 2047  /* records of a trace */
#define FRAME_MOST_TRACES 65535 /* added to one histogram */
#define FRAME_LIMITS 176        /* of loads, in a histogram */
#define FRAME_BUCKETS 177       /* of a histogram: one for load 0, then one for each limit */
#define FRAME_STACK_BYTES 98304 /* 96 KB */

/* The bytes of a tree of n steps and of buffers to lend for it, as lengths of arrays: uint8_t trace[FRAME_TRACE_BYTES(n)]. Record
 * asks for 2 (n - 1) bytes of trace, which is none for one step. C has no array of none, so FRAME_TRACE_BYTES is one more: only a
 * short buffer is refused. A schedule has at most n + (n - 1) / 2 events of 2 bytes each, a chain at most n steps of 2. */
#define FRAME_TREE_BYTES(n) (8u * (n))
#define FRAME_LOG_BYTES(n) (4u * (n))
#define FRAME_TRACE_BYTES(n) (2u * ((n) - 1u) + 1u)
#define FRAME_LIST_BYTES(n) (4u * (n))
#define FRAME_EVENTS_BYTES(n) (3u * (n) - 1u)
#define FRAME_CHAIN_BYTES(n) (2u * (n))

/* The kind of a tree's record. */
enum {
    FRAME_ASYNC = 1,  /* opens an async child */
    FRAME_FINISH = 2, /* opens a finish child */
    FRAME_END = 3     /* ends a task */
};

/* The policy. */
enum {
    FRAME_WORK_FIRST = 1,
    FRAME_HELP_FIRST = 2
};

/* The refusals. 3 to 5 and 8 to 15 have the position of a record, but 5 has n where the root is still open. 16 is judged directly
 * after 1; docs/FORMAT.md has the whole order. In a debugger, a cast to FrameRefusal shows a number's name. */
typedef enum FrameRefusal {
    FRAME_ACCEPTED = 0,
    FRAME_REFUSED_POLICY = 1,        /* the policy is neither 1 nor 2 */
    FRAME_REFUSED_TREE_LENGTH = 2,   /* the tree is empty, not whole records, or longer than 32,760 bytes */
    FRAME_REFUSED_TREE_RECORD = 3,   /* a tree record has another kind, a class above 15, or a non-zero byte 2 or 3 */
    FRAME_REFUSED_OPEN_TASKS = 4,    /* a tree record opens a task while 64 are open */
    FRAME_REFUSED_ROOT = 5,          /* a record follows the root's end; or the root is still open at the end */
    FRAME_REFUSED_INPUT_LENGTH = 6,  /* the events or the trace are not whole records or too many */
    FRAME_REFUSED_OUTPUT_LENGTH = 7, /* a lent output is short: log or run list 4 n bytes, trace 2 (n - 1), events 3 n - 1, chain 2 n */
    FRAME_REFUSED_WORKER = 8,        /* a record names a worker at or above the run's count */
    FRAME_REFUSED_IDLE = 9,          /* a run event names an idle worker */
    FRAME_REFUSED_WAITS = 10,        /* a run event names a worker that waits */
    FRAME_REFUSED_THIEF = 11,        /* a steal's thief holds a step */
    FRAME_REFUSED_DEQUE = 12,        /* a steal's victim has an empty deque */
    FRAME_REFUSED_SAME_WORKER = 13,  /* in a trace, thief and victim are equal */
    FRAME_REFUSED_NO_PHASE = 14,     /* in a trace, the victim has had no phase */
    FRAME_REFUSED_NUMBER = 15,       /* in a trace, the number breaks the rule of "Trace" */
    FRAME_REFUSED_COUNT = 16,        /* the count of workers is outside 1 to 16 */
    FRAME_REFUSED_FULL = 17          /* 65,535 traces have been added to the histogram */
} FrameRefusal;

/* What an event did. */
enum {
    FRAME_RAN = 1,
    FRAME_STOLE = 2
};

/* Marks of a run's state. */
enum {
    FRAME_PLACE_RUN = 16,
    FRAME_PLACE_NOT_RUN = 17,
    FRAME_NO_STEP = 65535
};

/* The state of a run. frame_start makes it and only events change it; the caller keeps it, and may copy and read it. Every byte is
 * a field's and none is padding, so memcmp tells whether two states are equal. */
typedef struct FrameState {
    uint8_t place[FRAME_MOST_STEPS]; /* for each step FRAME_PLACE_NOT_RUN, FRAME_PLACE_RUN, or the worker in whose deque
                                        the step is that it pushed */
    uint8_t policy;
    uint16_t held[FRAME_WORKERS];    /* for each worker the step that it holds, or FRAME_NO_STEP */
    uint16_t phase[FRAME_WORKERS];   /* its latest phase */
    uint16_t low[FRAME_WORKERS];     /* a step below which no place is marked with it */
    uint16_t base[FRAME_WORKERS];    /* work-first, the ordinal of that step */
    uint16_t steals;                 /* how many there were */
    uint16_t workers;                /* the run's count, which no event changes */
} FrameState;

typedef struct FrameStart {
    size_t number; /* the refusal, 0 for none; so in every answer */
    size_t position;
    FrameState state;
} FrameStart;

typedef struct FrameOutcome {
    size_t number;
    size_t position; /* always 0 */
    size_t what;     /* FRAME_RAN, FRAME_STOLE, or 0 for a refusal */
    size_t phase;    /* of a run: its log record is phase and step */
    size_t step;
    size_t trace;    /* of a steal: its trace record is first, second and this number */
} FrameOutcome;

typedef struct FrameEvent {
    FrameOutcome outcome;
    FrameState state;
} FrameEvent;

typedef struct FrameIdle {
    size_t set;    /* worker w is bit w; no bit from the run's count on */
    size_t count;
    size_t lowest; /* FRAME_WORKERS for none, whatever the run's count */
} FrameIdle;

typedef struct FrameRecord {
    size_t number;
    size_t position;
    size_t logs;     /* count of log records */
    size_t steals;   /* count of trace records */
    size_t finished; /* 1 if every step has run, else 0 */
    uint64_t loads[FRAME_WORKERS]; /* for each worker the weight of all steps that its phases cover at the end; 0 from the run's
                                      count on */
    size_t heaviest; /* the worker with the greatest load, the lowest among equals */
    uint64_t class_loads[FRAME_CLASSES]; /* for each class the weight of all its steps that phases cover at the end, whoever
                                            has them; the sum of class_loads is that of loads */
} FrameRecord;

typedef struct FrameReplay {
    size_t number;
    size_t position;
    size_t phases; /* one more than trace records */
    uint64_t loads[FRAME_WORKERS];
    size_t heaviest;
    uint64_t class_loads[FRAME_CLASSES];
} FrameReplay;

/* How the phases of many traces are loaded. frame_histogram_start makes it and only frame_histogram_add changes it; the caller keeps
 * it, and may copy and read it. Limit k, from 0 to FRAME_LIMITS - 1, is the largest whole number whose fourth power is at most 2 to
 * the power k. A phase is counted at the highest k whose limit does not exceed its load, the weight of the steps that it covers.
 * Every byte is a field's and none is padding, so memcmp tells whether two histograms are equal. */
typedef struct FrameHistogram {
    uint32_t traces;                /* added since the start */
    uint32_t counts[FRAME_BUCKETS]; /* of phases: counts[0] of load 0, counts[k + 1] at limit k. They add up to the phases of all
                                       traces added */
} FrameHistogram;

typedef struct FrameAdded {
    FrameReplay replay;       /* what frame_replay answers, its number and position first */
    FrameHistogram histogram; /* the next one; after a refusal the very one given */
} FrameAdded;

typedef struct FrameSchedule {
    size_t number;
    size_t position;
    size_t events; /* count of events, of 2 bytes each */
} FrameSchedule;

typedef struct FrameSpan {
    size_t number;
    size_t position;
    uint64_t work; /* what all steps weigh */
    uint64_t span; /* what the heaviest chain weighs: with workers enough, the frame lasts no less */
    size_t length; /* count of the chain's steps */
} FrameSpan;

/* Begins a run of so many workers, 1 to FRAME_WORKERS: worker 0 holds step 0, the others are idle. The state keeps the count for
 * its events. Refuses with 1, 16 and 2 to 5; the state is all 0 then. */
FrameStart frame_start(const uint8_t *tree, size_t tree_len, uint8_t policy, uint8_t workers);

/* One event: with first and second equal that worker runs the step that it holds, else first steals from second. The answer's
 * state is the next one; where the event is accepted, its held[first] is the step that first holds now. Refuses with 8 to 12; the
 * state is then the one given, and the run can go on with it. Give the state that the start or the latest event handed back, and
 * the tree of the start: on any other the answer means nothing. */
FrameEvent frame_event(FrameState state, const uint8_t *tree, size_t tree_len, uint8_t first, uint8_t second);

/* The same on a state where it stands: *state becomes the next state, and stays as it is after a refusal. It is not NULL. */
FrameOutcome frame_event_in_place(FrameState *state, const uint8_t *tree, size_t tree_len, uint8_t first, uint8_t second);

/* The workers of the run that hold no step. It never refuses. A worker that waits is not idle. */
FrameIdle frame_idle(FrameState state);

/* Runs a whole list of events from a start of its own, of so many workers. The log gets a record for each run, the trace one for
 * each steal; the bytes beyond them keep what they held. log_len must be at least FRAME_LOG_BYTES(n) and trace_len 2 (n - 1), for
 * which FRAME_TRACE_BYTES(n) is enough, however few the events. Refuses with 1, 16 and 2 to 12. */
FrameRecord frame_record(const uint8_t *tree, size_t tree_len, uint8_t policy, uint8_t workers, const uint8_t *events,
                         size_t events_len, uint8_t *log, size_t log_len, uint8_t *trace, size_t trace_len);

/* Reads a trace of a run of so many workers back into phases. The list gets a record for each of the n steps, phase 0 first, each
 * phase in the order in which it runs; the bytes beyond keep what they held. Phase 0 is worker 0's, phase k the thief's of trace
 * record k - 1. trace_len is 4 bytes for each record, not all that was lent to frame_record; list_len must be at least
 * FRAME_LIST_BYTES(n). Refuses with 1, 16, 2 to 8 and 13 to 15. */
FrameReplay frame_replay(const uint8_t *tree, size_t tree_len, uint8_t policy, uint8_t workers, const uint8_t *trace,
                         size_t trace_len, uint8_t *list, size_t list_len);

/* A histogram that no trace has been added to. It never refuses. */
FrameHistogram frame_histogram_start(void);

/* Does what frame_replay does, run list included, and adds all phases of the trace to a histogram. Refuses as frame_replay does, and
 * then with 17 where FRAME_MOST_TRACES have been added; a refused trace is not counted. Give the histogram that the start or the
 * latest addition handed back: on any other the counts mean nothing. */
FrameAdded frame_histogram_add(FrameHistogram histogram, const uint8_t *tree, size_t tree_len, uint8_t policy, uint8_t workers,
                               const uint8_t *trace, size_t trace_len, uint8_t *list, size_t list_len);

/* Makes a schedule for so many workers: a list of events that frame_record, with the same tree, policy and count, accepts, and that
 * run every step. The events stand at the front of the buffer; the bytes beyond keep what they held. events_len must be at least
 * FRAME_EVENTS_BYTES(n), however few the events, and frame_record takes 2 bytes for each of them, not all that was lent. Any number
 * is a seed. One seed gives one list, now and later: every version of the library that accepts these arguments makes the same
 * events of them, by the rule of docs/FORMAT.md. Another seed may give another list. Refuses with 1, 16, 2 to 5 and 7. */
FrameSchedule frame_schedule(const uint8_t *tree, size_t tree_len, uint8_t policy, uint8_t workers, uint32_t seed,
                             uint8_t *events, size_t events_len);

/* Work and span of a tree, whatever the policy and the workers, and one chain of steps that weighs the span, each of which must
 * precede the next; no chain weighs more. Of those that weigh as much it is the first in the order of docs/FORMAT.md. Its steps
 * stand at the front of the buffer, 2 bytes each, lowest first; the bytes beyond keep what they held. chain_len must be at least
 * FRAME_CHAIN_BYTES(n), however short the chain. Refuses with 2 to 5 and 7. */
FrameSpan frame_span(const uint8_t *tree, size_t tree_len, uint8_t *chain, size_t chain_len);

/* Questions about a tree. frame_tree says whether it is one. The others refuse nothing and read the tree again at each call; where
 * frame_tree refuses it, or it has no such step, their answers mean nothing beyond what is said below. */

typedef struct FrameTree {
    size_t number;
    size_t position;
    size_t steps;
} FrameTree;

typedef struct FrameTask {
    size_t first;   /* the task's first step */
    size_t ordinal; /* how many children the task opened before the step asked for */
} FrameTask;

typedef struct FrameRunning {
    size_t opens; /* 1 where the step opens a child; for an end, or no such step, all three are 0 */
    size_t hold;  /* the step that its worker holds next */
    size_t push;  /* the step that it pushes */
} FrameRunning;

/* The count of steps. Refuses with 2 to 5. */
FrameTree frame_tree(const uint8_t *tree, size_t tree_len);

/* The kind of a step's record, its class and its weight; 0 for a step beyond the tree. Where frame_tree refuses the tree, a class
 * may be above 15. */
uint8_t frame_kind(const uint8_t *tree, size_t tree_len, size_t step);
uint8_t frame_class(const uint8_t *tree, size_t tree_len, size_t step);
uint32_t frame_weight(const uint8_t *tree, size_t tree_len, size_t step);

/* The step after the end of the child that an opening step opens. */
size_t frame_cont(const uint8_t *tree, size_t tree_len, size_t step);

/* The task that a step belongs to, and the step's ordinal in it. */
FrameTask frame_task(const uint8_t *tree, size_t tree_len, size_t step);

/* The first step of the finish child whose end stands just before a step, for which it may have to wait; 0 for none. */
size_t frame_finish_before(const uint8_t *tree, size_t tree_len, size_t step);

/* What running a step does under a policy. */
FrameRunning frame_running(const uint8_t *tree, size_t tree_len, uint8_t policy, size_t step);

/* Where these fail the structs are not those of the library: another machine, or packed by a pragma. */
static_assert(offsetof(FrameState, policy) == 4095 && offsetof(FrameState, held) == 4096 && offsetof(FrameState, phase) == 4128
              && offsetof(FrameState, low) == 4160 && offsetof(FrameState, base) == 4192 && offsetof(FrameState, steals) == 4224
              && offsetof(FrameState, workers) == 4226 && sizeof(FrameState) == 4228, "FrameState is not the library's");
static_assert(sizeof(FrameEvent) == 4280 && sizeof(FrameRecord) == 304 && sizeof(FrameReplay) == 288
              && sizeof(FrameHistogram) == 712 && sizeof(FrameAdded) == 1000,
              "frame.h is for x86-64 Linux and structs that are not packed");

#ifdef __cplusplus
}
#endif

#endif
