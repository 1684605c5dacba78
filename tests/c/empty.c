/* A buffer of length 0 may be NULL, in every call. Prints the line of each expectation that fails. */
#include <stdio.h>
#include <string.h>

#include "../../include/frame.h"

static int failures;

static void expect(int holds, int line)
{
    if (!holds) {
        printf("tests/c/empty.c:%d\n", line);
        failures++;
    }
}

#define EXPECT(holds) expect(holds, __LINE__)

int main(void)
{
    const uint8_t one[8] = { FRAME_END };
    uint8_t bytes[4] = { 1, 2, 3, 4 };

    /* No tree. */
    EXPECT(frame_tree(NULL, 0).number == FRAME_REFUSED_TREE_LENGTH);
    EXPECT(frame_start(NULL, 0, FRAME_WORK_FIRST, 1).number == FRAME_REFUSED_TREE_LENGTH);
    EXPECT(frame_record(NULL, 0, FRAME_WORK_FIRST, 1, NULL, 0, NULL, 0, NULL, 0).number == FRAME_REFUSED_TREE_LENGTH);
    EXPECT(frame_replay(NULL, 0, FRAME_WORK_FIRST, 1, NULL, 0, NULL, 0).number == FRAME_REFUSED_TREE_LENGTH);
    EXPECT(frame_schedule(NULL, 0, FRAME_WORK_FIRST, 1, 0, NULL, 0).number == FRAME_REFUSED_TREE_LENGTH);
    EXPECT(frame_span(NULL, 0, NULL, 0).number == FRAME_REFUSED_TREE_LENGTH);
    const FrameHistogram histogram = frame_histogram_start();
    FrameAdded added = frame_histogram_add(histogram, NULL, 0, FRAME_WORK_FIRST, 1, NULL, 0, NULL, 0);
    EXPECT(added.replay.number == FRAME_REFUSED_TREE_LENGTH && memcmp(&added.histogram, &histogram, sizeof histogram) == 0);
    EXPECT(frame_kind(NULL, 0, 0) == 0 && frame_class(NULL, 0, 0) == 0);
    EXPECT(frame_weight(NULL, 0, 0) == 0 && frame_cont(NULL, 0, 0) == 0);
    EXPECT(frame_task(NULL, 0, 0).first == 0 && frame_finish_before(NULL, 0, 0) == 0);
    EXPECT(frame_running(NULL, 0, FRAME_HELP_FIRST, 0).opens == 0);

    /* A step beyond the tree is none: the worker is idle. */
    FrameState state = frame_start(one, sizeof one, FRAME_WORK_FIRST, 1).state;
    EXPECT(frame_event(state, NULL, 0, 0, 0).outcome.number == FRAME_REFUSED_IDLE);
    const FrameState before = state;
    EXPECT(frame_event_in_place(&state, NULL, 0, 0, 0).number == FRAME_REFUSED_IDLE);
    EXPECT(memcmp(&state, &before, sizeof state) == 0);

    /* One step: no events, and a trace of no records. */
    FrameRecord recorded = frame_record(one, sizeof one, FRAME_HELP_FIRST, 1, NULL, 0, bytes, sizeof bytes, NULL, 0);
    EXPECT(recorded.number == FRAME_ACCEPTED && recorded.logs == 0 && recorded.finished == 0 && bytes[0] == 1);
    FrameReplay replayed = frame_replay(one, sizeof one, FRAME_HELP_FIRST, 1, NULL, 0, bytes, sizeof bytes);
    EXPECT(replayed.number == FRAME_ACCEPTED && replayed.phases == 1 && bytes[0] == 0 && bytes[3] == 0);
    added = frame_histogram_add(histogram, one, sizeof one, FRAME_HELP_FIRST, 1, NULL, 0, bytes, sizeof bytes);
    EXPECT(added.replay.number == FRAME_ACCEPTED && added.histogram.traces == 1 && added.histogram.counts[0] == 1);

    /* No room. */
    recorded = frame_record(one, sizeof one, FRAME_HELP_FIRST, 1, NULL, 0, NULL, 0, NULL, 0);
    EXPECT(recorded.number == FRAME_REFUSED_OUTPUT_LENGTH);
    replayed = frame_replay(one, sizeof one, FRAME_HELP_FIRST, 1, NULL, 0, NULL, 0);
    EXPECT(replayed.number == FRAME_REFUSED_OUTPUT_LENGTH);
    added = frame_histogram_add(histogram, one, sizeof one, FRAME_HELP_FIRST, 1, NULL, 0, NULL, 0);
    EXPECT(added.replay.number == FRAME_REFUSED_OUTPUT_LENGTH && added.histogram.traces == 0);
    EXPECT(frame_schedule(one, sizeof one, FRAME_HELP_FIRST, 1, 0, NULL, 0).number == FRAME_REFUSED_OUTPUT_LENGTH);
    EXPECT(frame_span(one, sizeof one, NULL, 0).number == FRAME_REFUSED_OUTPUT_LENGTH);
    return failures > 0;
}
