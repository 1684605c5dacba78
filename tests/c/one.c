/* The smallest frame, in C and in C++: the tree of one end, in buffers whose lengths are the header's. Prints the line of each
 * expectation that fails. */
#include <stdio.h>

#include "../../include/frame.h"

static int failures;

static void expect(int holds, int line)
{
    if (!holds) {
        printf("tests/c/one.c:%d\n", line);
        failures++;
    }
}

#define EXPECT(holds) expect(holds, __LINE__)

int main(void)
{
    static const uint8_t tree[FRAME_TREE_BYTES(1)] = { FRAME_END, FRAME_CLASSES - 1, 0, 0, 9 };
    static const uint8_t events[2] = { 0, 0 };
    uint8_t log[FRAME_LOG_BYTES(1)] = { 7, 7, 7, 7 }, trace[FRAME_TRACE_BYTES(1)] = { 7 };
    uint8_t list[FRAME_LIST_BYTES(1)] = { 7, 7, 7, 7 }, made[FRAME_EVENTS_BYTES(1)] = { 7, 7 };
    uint8_t chain[FRAME_CHAIN_BYTES(1)] = { 7, 7 };

    for (uint8_t policy = FRAME_WORK_FIRST; policy <= FRAME_HELP_FIRST; policy++) {
        FrameRecord recorded = frame_record(tree, sizeof tree, policy, 1, events, sizeof events, log, sizeof log, trace,
                                            sizeof trace);
        EXPECT(recorded.number == FRAME_ACCEPTED && recorded.finished == 1 && recorded.logs == 1);
        EXPECT(recorded.steals == 0 && recorded.loads[0] == 9 && recorded.heaviest == 0);
        EXPECT(recorded.class_loads[0] == 0 && recorded.class_loads[FRAME_CLASSES - 1] == 9);
        EXPECT(log[0] == 0 && log[1] == 0 && log[2] == 0 && log[3] == 0);
        /* No steal: the trace keeps its byte. */
        EXPECT(trace[0] == 7);
        FrameReplay replayed = frame_replay(tree, sizeof tree, policy, 1, trace, 4 * recorded.steals, list, sizeof list);
        EXPECT(replayed.number == FRAME_ACCEPTED && replayed.phases == 1 && replayed.loads[0] == 9);
        EXPECT(replayed.class_loads[0] == 0 && replayed.class_loads[FRAME_CLASSES - 1] == 9);
        EXPECT(list[0] == 0 && list[1] == 0 && list[2] == 0 && list[3] == 0);
        FrameAdded added = frame_histogram_add(frame_histogram_start(), tree, sizeof tree, policy, 1, trace, 0, list, sizeof list);
        EXPECT(added.replay.number == FRAME_ACCEPTED && added.replay.phases == 1 && added.replay.loads[0] == 9);
        /* Limit 13 is 9, and limit 14 is 11. */
        EXPECT(added.histogram.traces == 1 && added.histogram.counts[13 + 1] == 1);
        FrameSchedule schedule = frame_schedule(tree, sizeof tree, policy, FRAME_WORKERS, 9, made, sizeof made);
        EXPECT(schedule.number == FRAME_ACCEPTED && schedule.events == 1 && made[0] == 0 && made[1] == 0);
    }
    FrameSpan spanned = frame_span(tree, sizeof tree, chain, sizeof chain);
    EXPECT(spanned.number == FRAME_ACCEPTED && spanned.work == 9 && spanned.span == 9);
    EXPECT(spanned.length == 1 && chain[0] == 0 && chain[1] == 0);
    return failures > 0;
}
