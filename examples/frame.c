/* The library from C: runs tree S of docs/FORMAT.md, here with two classes of steps, event by event, records the same events,
 * replays their trace and adds its phases to a histogram, begins a run of fewer workers, makes a schedule for them, and asks for work
 * and span. README.md says how to build it; examples/frame.txt is what it prints. */
#include <inttypes.h>
#include <stdio.h>

#include "frame.h"

#define STEPS 7
#define EVENTS 10

static const uint8_t kinds[STEPS] = {
    FRAME_ASYNC, FRAME_END, FRAME_FINISH, FRAME_ASYNC, FRAME_END, FRAME_END, FRAME_END
};

/* A class is a number below FRAME_CLASSES that the host chooses. The finish child's steps are debris. */
enum { RAGDOLL = 0, DEBRIS = 1 };

static const uint8_t classes[STEPS] = { RAGDOLL, RAGDOLL, RAGDOLL, DEBRIS, DEBRIS, DEBRIS, RAGDOLL };

/* Equal bytes: that worker runs its step. Different bytes: the first steals from the second. */
static const uint8_t events[2 * EVENTS] = {
    0, 0,  1, 0,  1, 1,  2, 1,  1, 1,  0, 0,  0, 1,  0, 0,  1, 1,  2, 2
};

/* The record of 8 bytes of a step: its kind, its class, two zeros, its weight in little-endian order. */
static void put_step(uint8_t *record, uint8_t kind, uint8_t step_class, uint32_t weight)
{
    record[0] = kind;
    record[1] = step_class;
    record[2] = record[3] = 0;
    for (int i = 0; i < 4; i++)
        record[4 + i] = (uint8_t)(weight >> (8 * i));
}

static size_t two_bytes(const uint8_t *at)
{
    return at[0] + (size_t)256 * at[1];
}

#define NAME(refusal) case refusal: return #refusal

static const char *refusal_name(size_t number)
{
    switch (number) {
        NAME(FRAME_REFUSED_POLICY);
        NAME(FRAME_REFUSED_TREE_LENGTH);
        NAME(FRAME_REFUSED_TREE_RECORD);
        NAME(FRAME_REFUSED_OPEN_TASKS);
        NAME(FRAME_REFUSED_ROOT);
        NAME(FRAME_REFUSED_INPUT_LENGTH);
        NAME(FRAME_REFUSED_OUTPUT_LENGTH);
        NAME(FRAME_REFUSED_WORKER);
        NAME(FRAME_REFUSED_IDLE);
        NAME(FRAME_REFUSED_WAITS);
        NAME(FRAME_REFUSED_THIEF);
        NAME(FRAME_REFUSED_DEQUE);
        NAME(FRAME_REFUSED_SAME_WORKER);
        NAME(FRAME_REFUSED_NO_PHASE);
        NAME(FRAME_REFUSED_NUMBER);
        NAME(FRAME_REFUSED_COUNT);
        NAME(FRAME_REFUSED_FULL);
        default: return "FRAME_ACCEPTED";
    }
}

/* Says why a call was refused; 1 if it was. */
static int refused(const char *call, size_t number, size_t position)
{
    if (number == FRAME_ACCEPTED)
        return 0;
    printf("%s is refused: %zu %s, position %zu\n", call, number, refusal_name(number), position);
    return 1;
}

int main(void)
{
    uint8_t tree[FRAME_TREE_BYTES(STEPS)], log[FRAME_LOG_BYTES(STEPS)];
    uint8_t trace[FRAME_TRACE_BYTES(STEPS)], list[FRAME_LIST_BYTES(STEPS)];

    for (size_t step = 0; step < STEPS; step++)
        put_step(tree + 8 * step, kinds[step], classes[step], 1);

    /* Live: one call for each event, on a state that the host keeps. */
    FrameStart start = frame_start(tree, sizeof tree, FRAME_WORK_FIRST, FRAME_WORKERS);
    if (refused("the start", start.number, start.position))
        return 1;
    FrameState state = start.state;
    for (size_t i = 0; i < EVENTS; i++) {
        uint8_t first = events[2 * i], second = events[2 * i + 1];
        FrameOutcome did = frame_event_in_place(&state, tree, sizeof tree, first, second);
        if (refused("an event", did.number, did.position))
            return 1;
        if (did.what == FRAME_RAN)
            printf("worker %d runs step %zu in phase %zu", first, did.step, did.phase);
        else
            printf("worker %d steals step %d from worker %d: number %zu", first, state.held[first], second, did.trace);
        FrameIdle idle = frame_idle(state);
        printf("; %zu idle, the lowest is %zu\n", idle.count, idle.lowest);
    }

    /* The same events in one call, which writes log and trace. */
    FrameRecord recorded = frame_record(tree, sizeof tree, FRAME_WORK_FIRST, FRAME_WORKERS, events, sizeof events, log,
                                        sizeof log, trace, sizeof trace);
    if (refused("recording", recorded.number, recorded.position))
        return 1;
    printf("\n%zu steps in the log, %s\n", recorded.logs, recorded.finished ? "finished" : "not finished");
    for (size_t i = 0; i < recorded.steals; i++)
        printf("trace: %d takes from %d number %zu\n", trace[4 * i], trace[4 * i + 1], two_bytes(trace + 4 * i + 2));
    for (int worker = 0; worker < FRAME_WORKERS; worker++)
        if (recorded.loads[worker] > 0)
            printf("worker %d has load %" PRIu64 "\n", worker, recorded.loads[worker]);
    printf("worker %zu is the heaviest\n", recorded.heaviest);
    for (int class_number = 0; class_number < FRAME_CLASSES; class_number++)
        if (recorded.class_loads[class_number] > 0)
            printf("class %d has load %" PRIu64 "\n", class_number, recorded.class_loads[class_number]);

    /* The trace back into phases: phase 0 is worker 0's, a later one the thief's of the trace record before it. */
    FrameReplay replayed = frame_replay(tree, sizeof tree, FRAME_WORK_FIRST, FRAME_WORKERS, trace, 4 * recorded.steals, list,
                                        sizeof list);
    if (refused("replay", replayed.number, replayed.position))
        return 1;
    printf("\nphase worker step\n");
    for (size_t i = 0; i < STEPS; i++) {
        size_t phase = two_bytes(list + 4 * i);
        printf("%zu %d %zu\n", phase, phase == 0 ? 0 : trace[4 * (phase - 1)], two_bytes(list + 4 * i + 2));
    }

    /* The same trace added to a histogram of the week, twice: what replay answers, and how its phases are loaded. */
    FrameHistogram week = frame_histogram_start();
    for (int i = 0; i < 2; i++) {
        FrameAdded added = frame_histogram_add(week, tree, sizeof tree, FRAME_WORK_FIRST, FRAME_WORKERS, trace, 4 * recorded.steals,
                                               list, sizeof list);
        if (refused("adding", added.replay.number, added.replay.position))
            return 1;
        week = added.histogram;
    }
    printf("\n%" PRIu32 " traces, of their phases\n%" PRIu32 " of load 0\n", week.traces, week.counts[0]);
    for (int k = 0; k < FRAME_LIMITS; k++)
        if (week.counts[k + 1] > 0)
            printf("%" PRIu32 " at limit %d\n", week.counts[k + 1], k);

    /* A trace whose second record is damaged. The list keeps its bytes. */
    trace[4 + 2] = 1;
    replayed = frame_replay(tree, sizeof tree, FRAME_WORK_FIRST, FRAME_WORKERS, trace, 4 * recorded.steals, list, sizeof list);
    printf("\n");
    if (!refused("replay", replayed.number, replayed.position))
        return 1;

    /* A run of four workers, 0 to 3: the state keeps their count, so an event of worker 4 is refused. */
    start = frame_start(tree, sizeof tree, FRAME_WORK_FIRST, 4);
    if (refused("the start", start.number, start.position))
        return 1;
    printf("\nof %d workers %zu are idle\n", start.state.workers, frame_idle(start.state).count);
    FrameOutcome did = frame_event_in_place(&start.state, tree, sizeof tree, 4, 0);
    if (!refused("an event", did.number, did.position))
        return 1;

    /* A schedule for them, made from a seed: recording takes its events, which run every step. */
    uint8_t made[FRAME_EVENTS_BYTES(STEPS)];
    FrameSchedule schedule = frame_schedule(tree, sizeof tree, FRAME_WORK_FIRST, 4, 1640531527, made, sizeof made);
    if (refused("the schedule", schedule.number, schedule.position))
        return 1;
    recorded = frame_record(tree, sizeof tree, FRAME_WORK_FIRST, 4, made, 2 * schedule.events, log, sizeof log, trace,
                            sizeof trace);
    if (refused("recording", recorded.number, recorded.position))
        return 1;
    printf("\na schedule of %zu events, %s\n", schedule.events, recorded.finished ? "finished" : "not finished");

    /* What more workers could gain: the frame lasts no less than its heaviest chain of steps. */
    uint8_t chain[FRAME_CHAIN_BYTES(STEPS)];
    FrameSpan spanned = frame_span(tree, sizeof tree, chain, sizeof chain);
    if (refused("work and span", spanned.number, spanned.position))
        return 1;
    printf("\nwork %" PRIu64 ", span %" PRIu64 ", chain", spanned.work, spanned.span);
    for (size_t i = 0; i < spanned.length; i++)
        printf(" %zu", two_bytes(chain + 2 * i));
    printf("\n");
    return 0;
}
