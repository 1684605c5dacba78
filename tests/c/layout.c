/* Prints the sizes, offsets and constants of frame.h; tests/tests/header.rs compares them with the Rust declarations. */
#include <stdio.h>

#include "../../include/frame.h"

#define TYPE(type) printf("%s %zu\n", #type, sizeof(type))
/* Offset and size. */
#define FIELD(type, field) printf("%s.%s %zu %zu\n", #type, #field, offsetof(type, field), sizeof(((type *)0)->field))
#define NUMBER(name) printf("%s %zu\n", #name, (size_t)(name))

static void types(void)
{
    TYPE(FrameState);
    FIELD(FrameState, place);
    FIELD(FrameState, policy);
    FIELD(FrameState, held);
    FIELD(FrameState, phase);
    FIELD(FrameState, low);
    FIELD(FrameState, base);
    FIELD(FrameState, steals);
    FIELD(FrameState, workers);
    TYPE(FrameStart);
    FIELD(FrameStart, number);
    FIELD(FrameStart, position);
    FIELD(FrameStart, state);
    TYPE(FrameOutcome);
    FIELD(FrameOutcome, number);
    FIELD(FrameOutcome, position);
    FIELD(FrameOutcome, what);
    FIELD(FrameOutcome, phase);
    FIELD(FrameOutcome, step);
    FIELD(FrameOutcome, trace);
    TYPE(FrameEvent);
    FIELD(FrameEvent, outcome);
    FIELD(FrameEvent, state);
    TYPE(FrameIdle);
    FIELD(FrameIdle, set);
    FIELD(FrameIdle, count);
    FIELD(FrameIdle, lowest);
    TYPE(FrameRecord);
    FIELD(FrameRecord, number);
    FIELD(FrameRecord, position);
    FIELD(FrameRecord, logs);
    FIELD(FrameRecord, steals);
    FIELD(FrameRecord, finished);
    FIELD(FrameRecord, loads);
    FIELD(FrameRecord, heaviest);
    FIELD(FrameRecord, class_loads);
    TYPE(FrameReplay);
    FIELD(FrameReplay, number);
    FIELD(FrameReplay, position);
    FIELD(FrameReplay, phases);
    FIELD(FrameReplay, loads);
    FIELD(FrameReplay, heaviest);
    FIELD(FrameReplay, class_loads);
    TYPE(FrameSchedule);
    FIELD(FrameSchedule, number);
    FIELD(FrameSchedule, position);
    FIELD(FrameSchedule, events);
    TYPE(FrameSpan);
    FIELD(FrameSpan, number);
    FIELD(FrameSpan, position);
    FIELD(FrameSpan, work);
    FIELD(FrameSpan, span);
    FIELD(FrameSpan, length);
    TYPE(FrameHistogram);
    FIELD(FrameHistogram, traces);
    FIELD(FrameHistogram, counts);
    TYPE(FrameAdded);
    FIELD(FrameAdded, replay);
    FIELD(FrameAdded, histogram);
    TYPE(FrameTree);
    FIELD(FrameTree, number);
    FIELD(FrameTree, position);
    FIELD(FrameTree, steps);
    TYPE(FrameTask);
    FIELD(FrameTask, first);
    FIELD(FrameTask, ordinal);
    TYPE(FrameRunning);
    FIELD(FrameRunning, opens);
    FIELD(FrameRunning, hold);
    FIELD(FrameRunning, push);
}

static void constants(void)
{
    NUMBER(FRAME_VERSION);
    NUMBER(FRAME_MOST_STEPS);
    NUMBER(FRAME_MOST_OPEN);
    NUMBER(FRAME_WORKERS);
    NUMBER(FRAME_CLASSES);
    NUMBER(FRAME_MOST_EVENTS);
    NUMBER(FRAME_MOST_STEALS);
    NUMBER(FRAME_LIMITS);
    NUMBER(FRAME_BUCKETS);
    NUMBER(FRAME_MOST_TRACES);
    NUMBER(FRAME_STACK_BYTES);
    NUMBER(FRAME_TREE_BYTES(4095));
    NUMBER(FRAME_LOG_BYTES(4095));
    NUMBER(FRAME_TRACE_BYTES(4095));
    NUMBER(FRAME_LIST_BYTES(4095));
    NUMBER(FRAME_EVENTS_BYTES(4095));
    NUMBER(FRAME_CHAIN_BYTES(4095));
    NUMBER(FRAME_TRACE_BYTES(1));
    NUMBER(FRAME_TREE_BYTES(1|2));
    NUMBER(FRAME_LOG_BYTES(1|2));
    NUMBER(FRAME_TRACE_BYTES(1|2));
    NUMBER(FRAME_LIST_BYTES(1|2));
    NUMBER(FRAME_EVENTS_BYTES(1|2));
    NUMBER(FRAME_CHAIN_BYTES(1|2));
    NUMBER(FRAME_ASYNC);
    NUMBER(FRAME_FINISH);
    NUMBER(FRAME_END);
    NUMBER(FRAME_WORK_FIRST);
    NUMBER(FRAME_HELP_FIRST);
    NUMBER(FRAME_ACCEPTED);
    NUMBER(FRAME_REFUSED_POLICY);
    NUMBER(FRAME_REFUSED_TREE_LENGTH);
    NUMBER(FRAME_REFUSED_TREE_RECORD);
    NUMBER(FRAME_REFUSED_OPEN_TASKS);
    NUMBER(FRAME_REFUSED_ROOT);
    NUMBER(FRAME_REFUSED_INPUT_LENGTH);
    NUMBER(FRAME_REFUSED_OUTPUT_LENGTH);
    NUMBER(FRAME_REFUSED_WORKER);
    NUMBER(FRAME_REFUSED_IDLE);
    NUMBER(FRAME_REFUSED_WAITS);
    NUMBER(FRAME_REFUSED_THIEF);
    NUMBER(FRAME_REFUSED_DEQUE);
    NUMBER(FRAME_REFUSED_SAME_WORKER);
    NUMBER(FRAME_REFUSED_NO_PHASE);
    NUMBER(FRAME_REFUSED_NUMBER);
    NUMBER(FRAME_REFUSED_COUNT);
    NUMBER(FRAME_REFUSED_FULL);
    NUMBER(FRAME_RAN);
    NUMBER(FRAME_STOLE);
    NUMBER(FRAME_PLACE_RUN);
    NUMBER(FRAME_PLACE_NOT_RUN);
    NUMBER(FRAME_NO_STEP);
}

int main(void)
{
    types();
    constants();
    return 0;
}
