// The baseline of the benchmarks: recording, replay, histograms, single events, the schedule maker, and work and span, tuned by
// hand and proved by nothing. It reads the same bytes as the library, refuses the same calls with the same numbers and
// positions, and writes the same bytes. It is for little-endian machines only.
//
// What makes it fast: one pass checks the tree and finds the continuations; neither that nor running a step branches on a
// record's kind, which a processor cannot foresee. A step that was popped never waits, because steals take the oldest step
// first: whatever stood above a finish continuation in its deque has run. A stolen one waits while some worker holds a step
// of the finish child, because every phase with steps left in the child holds one of them. Such a phase does not leave the
// child before it ends: so the maker looks again only then. Phases cover every step, so the class loads are the tree's own
// weights by class, whatever the run was. Work and span take one pass, which judges the tree too. It does branch on the kind:
// arithmetic in place of that gains in random trees, and loses more in all others. An addition to a histogram is a replay that
// also counts the loads which it has anyway; a load's highest bit leaves four limits, and these are shifts of the last four.

#include <stddef.h>
#include <stdint.h>
#include <string.h>

enum {
    TREE_RECORD = 8,
    MOST_STEPS = 4095,
    MOST_OPEN = 64,
    MOST_EVENTS = 8192,
    MOST_STEALS = 2047,
    MOST_TRACES = 65535,
    BUCKETS = 177,
    WORKERS = 16,
    CLASSES = 16,
    WORK_FIRST = 1,
    HELP_FIRST = 2,
    ASYNC = 1,
    FINISH = 2,
    END = 3,
    // The bits of a record's class.
    CLASS = 15 << 8,
    // A step that no tree has, in place of the root's opener.
    NO_OPENER = MOST_STEPS,
    // No step, no phase or no label.
    NONE = 65535,
    // Added to a held step: a finish continuation that was stolen, so that it may have to wait.
    MAY_WAIT = 32768,
};

// Added to a move: the pushed step is dropped, because it was stolen.
static const uint32_t DROPPED = 1u << 31;

struct refusal {
    size_t number, position;
};

struct recorded {
    size_t number, position, logs, steals, finished;
    uint64_t loads[WORKERS];
    size_t heaviest;
    uint64_t class_loads[CLASSES];
};

struct replayed {
    size_t number, position, phases;
    uint64_t loads[WORKERS];
    size_t heaviest;
    uint64_t class_loads[CLASSES];
};

struct histogram {
    uint32_t traces;
    uint32_t counts[BUCKETS];
};

struct added {
    struct replayed replayed;
    struct histogram histogram;
};

struct outcome {
    size_t number, position, what, phase, step, trace;
};

struct scheduled {
    size_t number, position, events;
};

struct spanned {
    size_t number, position;
    uint64_t work, span;
    size_t length;
};

// ---- The tree ----

// What running a step does, by step: it holds the lower half and pushes the upper half; 0 for an end, which pops.
typedef uint32_t moves[MOST_STEPS + 1];

static inline uint32_t held_by(uint32_t move)
{
    return move & 65535;
}

static inline uint32_t pushed_by(uint32_t move)
{
    return move >> 16;
}

static inline uint64_t record_at(const uint8_t *tree, size_t step)
{
    uint64_t record;
    memcpy(&record, tree + TREE_RECORD * step, sizeof record);
    return record;
}

static inline uint32_t weight_of(uint64_t record)
{
    return record >> 32;
}

static inline uint32_t class_of(uint64_t record)
{
    return (record & CLASS) >> 8;
}

static inline unsigned kind_at(const uint8_t *tree, size_t step)
{
    return tree[TREE_RECORD * step];
}

// One of two numbers, without a branch.
static inline uint32_t select(uint32_t condition, uint32_t yes, uint32_t no)
{
    return no ^ ((yes ^ no) & -condition);
}

// Refusals 2 to 5, or the moves, and for each step but the first, where a table is given, the step that holds or pushes it.
static inline struct refusal read_records(const uint8_t *tree, size_t length, unsigned policy, uint32_t *restrict moves,
                                          uint16_t *restrict opener)
{
    if (length == 0 || length % TREE_RECORD != 0 || length > TREE_RECORD * MOST_STEPS)
        return (struct refusal){2, 0};
    size_t n = length / TREE_RECORD;
    // For each open task its opener, and under help-first by how many bits the opener's move is turned, so that an async opener
    // holds its continuation. What stands above the innermost task means nothing.
    struct {
        uint16_t opener, turn;
    } stack[MOST_OPEN + 2];
    size_t open = 1;
    stack[1].opener = NO_OPENER;
    stack[1].turn = 0;
    for (size_t i = 0; i < n; i++) {
        // Byte 0, and bits above it only where bytes 1 to 3 are refused.
        uint32_t kind = (uint32_t)record_at(tree, i) & ~CLASS;
        size_t opens = kind != END;
        if (open == 0 || kind - ASYNC > END - ASYNC || open + opens > MOST_OPEN)
            return (struct refusal){kind - ASYNC > END - ASYNC ? 3 : open == 0 ? 5 : 4, i};
        // Every step of a task writes its opener's move, and the task's end writes it last.
        uint32_t from = stack[open].opener;
        uint32_t move = (from + 1) | (uint32_t)(i + 1) << 16;
        if (policy == HELP_FIRST) {
            uint32_t turn = stack[open].turn;
            move = move << turn | move >> (-turn & 31);
            stack[open + 1].turn = (kind == ASYNC) * 16;
        }
        moves[from] = move;
        moves[i] = 0;
        stack[open + 1].opener = i;
        if (opener)
            opener[i + 1] = stack[open + opens].opener;
        open += 2 * opens - 1;
    }
    if (open != 0)
        return (struct refusal){5, n};
    return (struct refusal){0, 0};
}

// The same with refusals 1 and 16. The table of those that hold or push a step is filled under help-first only.
static struct refusal read_tree(const uint8_t *tree, size_t length, unsigned policy, unsigned workers, uint32_t *moves,
                                uint16_t *opener)
{
    if (policy != WORK_FIRST && policy != HELP_FIRST)
        return (struct refusal){1, 0};
    if (workers - 1 >= WORKERS)
        return (struct refusal){16, 0};
    if (policy == WORK_FIRST)
        return read_records(tree, length, WORK_FIRST, moves, NULL);
    if (opener)
        return read_records(tree, length, HELP_FIRST, moves, opener);
    return read_records(tree, length, HELP_FIRST, moves, NULL);
}

static inline size_t heaviest(const uint64_t *loads)
{
    size_t best = 0;
    for (size_t w = 1; w < WORKERS; w++)
        if (loads[best] < loads[w])
            best = w;
    return best;
}

// The weight from a step to the end of its task.
static uint64_t rest_of_task(const uint8_t *tree, const uint32_t *moves, size_t step)
{
    size_t end = step;
    // Of the two steps the continuation is the later one.
    for (uint32_t move; (move = moves[end]) != 0;)
        end = held_by(move) > pushed_by(move) ? held_by(move) : pushed_by(move);
    uint64_t weight = 0;
    for (size_t i = step; i <= end; i++)
        weight += weight_of(record_at(tree, i));
    return weight;
}

// Whether all steps are of one class, as in trees made before there were classes.
static inline int one_class(const uint8_t *tree, size_t n)
{
    enum { BLOCK = 32 };
    uint64_t first = record_at(tree, 0), differ = 0;
    size_t i = 0;
    for (; i + BLOCK <= n; i += BLOCK) {
        for (size_t k = 0; k < BLOCK; k++)
            differ |= record_at(tree, i + k) ^ first;
        if (class_of(differ) != 0)
            return 0;
    }
    for (; i < n; i++)
        differ |= record_at(tree, i) ^ first;
    return class_of(differ) == 0;
}

// The class loads. A single class has the load of all workers; else the weights are added up, by sums that take turns, since each
// addition to the same place waits for the one before.
static void add_classes(const uint8_t *tree, size_t n, const uint64_t *restrict loads, uint64_t *restrict class_loads)
{
    enum { TURNS = 4 };
    if (one_class(tree, n)) {
        uint64_t load = 0;
        for (size_t w = 0; w < WORKERS; w++)
            load += loads[w];
        class_loads[class_of(record_at(tree, 0))] = load;
        return;
    }
    uint64_t sums[TURNS][CLASSES] = {0};
    size_t i = 0;
    for (; i + TURNS <= n; i += TURNS)
        for (size_t turn = 0; turn < TURNS; turn++) {
            uint64_t record = record_at(tree, i + turn);
            sums[turn][class_of(record)] += weight_of(record);
        }
    for (; i < n; i++) {
        uint64_t record = record_at(tree, i);
        sums[0][class_of(record)] += weight_of(record);
    }
    for (size_t turn = 0; turn < TURNS; turn++)
        for (size_t class = 0; class < CLASSES; class++)
            class_loads[class] += sums[turn][class];
}

// ---- A run ----

enum {
    // Under work-first a deque has at most one step for each open child, under help-first one for each spawned task. Below the
    // oldest step stands NONE.
    DEEP_ROOM = MOST_OPEN + 2,
    WIDE_ROOM = MOST_STEALS + 2,
};

// A step of a deque and its pusher.
struct pushed {
    uint16_t step, pusher;
};

struct worker {
    struct pushed *oldest, *newest;
    uint64_t load;
    uint16_t held, phase;
};

// What only steals need.
struct stolen {
    // The pusher of the phase's first step.
    uint16_t pusher;
    // Work-first: a step of the task that the oldest step of the deque is in, and its ordinal.
    uint16_t base, ordinal;
};

struct run {
    moves moves;
    struct worker workers[WORKERS];
    struct stolen stolen[WORKERS];
    size_t steals;
    uint8_t policy, count;
    // An idle worker's newest step is one before its room.
    struct pushed deques[1 + WORKERS * WIDE_ROOM];
};

static inline void begin_phase(struct run *run, size_t w, unsigned policy)
{
    struct worker *worker = &run->workers[w];
    struct pushed *room = run->deques + 1 + w * (policy == WORK_FIRST ? DEEP_ROOM : WIDE_ROOM);
    room->step = NONE;
    worker->newest = room;
    worker->oldest = room + 1;
}

static inline void begin_run(struct run *run, unsigned policy, unsigned workers)
{
    for (size_t w = 0; w < WORKERS; w++) {
        run->workers[w] = (struct worker){.held = NONE};
        begin_phase(run, w, policy);
    }
    run->workers[0].held = 0;
    run->stolen[0] = (struct stolen){0};
    run->steals = 0;
    run->policy = policy;
    run->count = workers;
}

// Who holds a step between the stolen finish continuation that a worker holds and its pusher: the lowest, or WORKERS.
static size_t in_the_way(const struct run *run, size_t worker)
{
    size_t step = run->workers[worker].held % MAY_WAIT, w = 0;
    for (; w < WORKERS; w++) {
        size_t held = run->workers[w].held % MAY_WAIT;
        if (run->stolen[worker].pusher < held && held < step)
            break;
    }
    return w;
}

// A worker has run this step.
static inline void advance(const struct run *run, unsigned policy, struct worker *worker, uint32_t step)
{
    uint32_t move = run->moves[step], ends = move == 0;
    struct pushed *newest = worker->newest;
    uint32_t popped = newest->step;
    newest[1] = (struct pushed){pushed_by(move), step};
    newest += 1 - 2 * (ptrdiff_t)ends;
    if (policy == WORK_FIRST)
        // Serial order: what is popped is the step behind the end, which is known before the step's move is.
        worker->held = newest + 1 < worker->oldest ? NONE : step + 1;
    else
        worker->held = select(ends, popped, held_by(move));
    worker->newest = newest;
}

// A worker runs its step: refusals 9 and 10, or 0 and the step.
static inline unsigned run_step(struct run *run, const uint8_t *tree, unsigned policy, struct worker *worker, uint32_t *ran)
{
    uint32_t step = worker->held;
    if (step >= MAY_WAIT) {
        if (step == NONE)
            return 9;
        if (in_the_way(run, worker - run->workers) < WORKERS)
            return 10;
        step -= MAY_WAIT;
    }
    advance(run, policy, worker, step);
    worker->load += weight_of(record_at(tree, step));
    *ran = step;
    return 0;
}

// The thief takes the oldest step of the victim's deque, which has one, and begins a phase.
static inline void take(struct run *run, const uint8_t *tree, unsigned policy, size_t thief, size_t victim)
{
    struct worker *from = &run->workers[victim];
    uint32_t step = from->oldest->step, pusher = from->oldest->pusher;
    from->oldest++->step = NONE;
    begin_phase(run, thief, policy);
    run->workers[thief].held = kind_at(tree, pusher) == FINISH ? step + MAY_WAIT : step;
    run->stolen[thief].pusher = pusher;
}

// A steal: refusals 11 and 12, or 0 and the trace number.
static inline unsigned steal(struct run *run, const uint8_t *tree, unsigned policy, size_t thief, size_t victim, uint32_t *number)
{
    struct worker *to = &run->workers[thief], *from = &run->workers[victim];
    if (to->held != NONE)
        return 11;
    if (from->newest < from->oldest)
        return 12;
    uint32_t step = from->oldest->step, pusher = from->oldest->pusher;
    *number = step;
    if (policy == WORK_FIRST) {
        struct stolen *lost = &run->stolen[victim];
        uint32_t ordinal = lost->ordinal + 1;
        for (size_t at = lost->base; at != pusher; at = pushed_by(run->moves[at]))
            ordinal++;
        lost->base = pusher + 1;
        lost->ordinal = 0;
        *number = ordinal;
    }
    take(run, tree, policy, thief, victim);
    to->phase = ++run->steals;
    run->stolen[thief] = (struct stolen){pusher, step, *number};
    return 0;
}

// ---- Recording ----

struct outputs {
    uint32_t log[MOST_STEPS];
    uint32_t trace[MOST_STEALS];
    size_t logs;
};

static inline struct refusal walk(struct run *restrict run, const uint8_t *tree, unsigned policy, size_t workers,
                                  const uint8_t *events, size_t count, struct outputs *restrict outputs)
{
    uint32_t *log = outputs->log;
    begin_run(run, policy, workers);
    for (size_t at = 0; at < count; at++) {
        size_t first = events[2 * at], second = events[2 * at + 1];
        if (first >= workers || second >= workers)
            return (struct refusal){8, at};
        if (first == second) {
            struct worker *worker = &run->workers[first];
            uint32_t step;
            unsigned refused = run_step(run, tree, policy, worker, &step);
            if (refused)
                return (struct refusal){refused, at};
            *log++ = worker->phase | step << 16;
        } else {
            uint32_t number;
            unsigned refused = steal(run, tree, policy, first, second, &number);
            if (refused)
                return (struct refusal){refused, at};
            outputs->trace[run->steals - 1] = (uint32_t)(first | second << 8 | (size_t)number << 16);
        }
    }
    outputs->logs = log - outputs->log;
    return (struct refusal){0, 0};
}

// A function for each policy. Inlined into the call, in which the run is a local variable, they are slower.
__attribute__((noinline)) static struct refusal walk_work_first(struct run *run, const uint8_t *tree, size_t workers,
                                                                const uint8_t *events, size_t count, struct outputs *outputs)
{
    return walk(run, tree, WORK_FIRST, workers, events, count, outputs);
}

__attribute__((noinline)) static struct refusal walk_help_first(struct run *run, const uint8_t *tree, size_t workers,
                                                                const uint8_t *events, size_t count, struct outputs *outputs)
{
    return walk(run, tree, HELP_FIRST, workers, events, count, outputs);
}

struct recorded tuned_record(const uint8_t *tree, size_t tree_length, uint8_t policy, uint8_t workers, const uint8_t *events,
                             size_t events_length, uint8_t *log, size_t log_length, uint8_t *trace, size_t trace_length)
{
    struct run run;
    struct outputs outputs;
    struct recorded answer = {0};
    size_t n = tree_length / TREE_RECORD;
    struct refusal refusal = read_tree(tree, tree_length, policy, workers, run.moves, NULL);
    if (refusal.number == 0 && (events_length % 2 != 0 || events_length > 2 * MOST_EVENTS))
        refusal.number = 6;
    if (refusal.number == 0 && (log_length < 4 * n || trace_length < 2 * (n - 1)))
        refusal.number = 7;
    if (refusal.number == 0)
        refusal = policy == WORK_FIRST ? walk_work_first(&run, tree, workers, events, events_length / 2, &outputs)
                                       : walk_help_first(&run, tree, workers, events, events_length / 2, &outputs);
    answer.number = refusal.number;
    answer.position = refusal.position;
    if (refusal.number != 0)
        return answer;
    memcpy(log, outputs.log, 4 * outputs.logs);
    memcpy(trace, outputs.trace, 4 * run.steals);
    answer.logs = outputs.logs;
    answer.steals = run.steals;
    answer.finished = outputs.logs == n;
    for (size_t w = 0; w < WORKERS; w++) {
        struct worker *worker = &run.workers[w];
        answer.loads[w] = worker->load;
        // What has not run yet is what is held or in a deque, each up to the end of its task.
        if (worker->held != NONE) {
            answer.loads[w] += rest_of_task(tree, run.moves, worker->held % MAY_WAIT);
            for (struct pushed *queued = worker->oldest; queued <= worker->newest; queued++)
                answer.loads[w] += rest_of_task(tree, run.moves, queued->step);
        }
    }
    answer.heaviest = heaviest(answer.loads);
    add_classes(tree, n, answer.loads, answer.class_loads);
    return answer;
}

// ---- Making schedules ----

// What an idle worker's turn adds to the seed.
static const uint32_t ADDED = 2654435769u;

static inline uint8_t *put_event(uint8_t *event, size_t first, size_t second)
{
    event[0] = first;
    event[1] = second;
    return event + 2;
}

// A worker's phase has ended. Those that waited for it wait for another worker, or no longer: the latter are given, as bits.
static inline uint32_t woken(struct run *run, uint32_t *waiting, size_t worker)
{
    uint32_t woken = 0;
    for (uint32_t left = waiting[worker]; left != 0; left &= left - 1) {
        size_t w = __builtin_ctz(left), other = in_the_way(run, w);
        if (other < WORKERS) {
            waiting[other] |= 1u << w;
        } else {
            run->workers[w].held -= MAY_WAIT;
            woken |= 1u << w;
        }
    }
    waiting[worker] = 0;
    return woken;
}

// Makes the list, and gives the count of its events.
static inline size_t make(struct run *restrict run, const uint8_t *tree, size_t n, unsigned policy, size_t workers,
                          uint32_t seed, uint8_t *restrict events)
{
    uint8_t *event = events;
    // Workers as bits: who holds a step, who does not wait, and for each worker who waits for it.
    uint32_t busy = 1, awake = (1u << workers) - 1, waiting[WORKERS] = {0};
    begin_run(run, policy, workers);
    for (size_t left = n; left > 0;)
        // One round, by those whose turn is yet to come: who waits is passed over, and once woken has its turn as others.
        for (uint32_t turns = awake; turns != 0;) {
            size_t w = __builtin_ctz(turns);
            struct worker *worker = &run->workers[w];
            if (busy >> w & 1) {
                event = put_event(event, w, w);
                left--;
                advance(run, policy, worker, worker->held);
                if (worker->held == NONE) {
                    busy -= 1u << w;
                    awake |= woken(run, waiting, w);
                    turns = awake & -2u << w;
                    continue;
                }
            } else {
                seed += ADDED;
                size_t victim = seed >> 28;
                struct worker *from = &run->workers[victim];
                if (busy >> victim & 1 && from->oldest <= from->newest) {
                    event = put_event(event, w, victim);
                    take(run, tree, policy, w, victim);
                    busy += 1u << w;
                    if (worker->held >= MAY_WAIT) {
                        // It does wait: the victim holds a step of the finish child.
                        awake -= 1u << w;
                        waiting[victim] |= 1u << w;
                    }
                }
            }
            turns &= turns - 1;
        }
    return (event - events) / 2;
}

__attribute__((noinline)) static size_t make_work_first(struct run *run, const uint8_t *tree, size_t n, size_t workers,
                                                        uint32_t seed, uint8_t *events)
{
    return make(run, tree, n, WORK_FIRST, workers, seed, events);
}

__attribute__((noinline)) static size_t make_help_first(struct run *run, const uint8_t *tree, size_t n, size_t workers,
                                                        uint32_t seed, uint8_t *events)
{
    return make(run, tree, n, HELP_FIRST, workers, seed, events);
}

struct scheduled tuned_schedule(const uint8_t *tree, size_t tree_length, uint8_t policy, uint8_t workers, uint32_t seed,
                                uint8_t *events, size_t events_length)
{
    struct run run;
    size_t n = tree_length / TREE_RECORD;
    struct refusal refusal = read_tree(tree, tree_length, policy, workers, run.moves, NULL);
    // A run event for each step, and a steal for each spawned task.
    if (refusal.number == 0 && events_length < 2 * (n + (n - 1) / 2))
        refusal.number = 7;
    if (refusal.number != 0)
        return (struct scheduled){refusal.number, refusal.position, 0};
    size_t count = policy == WORK_FIRST ? make_work_first(&run, tree, n, workers, seed, events)
                                        : make_help_first(&run, tree, n, workers, seed, events);
    return (struct scheduled){0, 0, count};
}

// ---- Single events ----

size_t tuned_state_bytes(void)
{
    return sizeof(struct run);
}

struct refusal tuned_start(struct run *run, const uint8_t *tree, size_t tree_length, uint8_t policy, uint8_t workers)
{
    struct refusal refusal = read_tree(tree, tree_length, policy, workers, run->moves, NULL);
    if (refusal.number == 0)
        begin_run(run, policy, workers);
    return refusal;
}

// The same run from its start again, on the table that it has.
void tuned_restart(struct run *run)
{
    begin_run(run, run->policy, run->count);
}

// The tree is the one of the start.
struct outcome tuned_event(struct run *run, const uint8_t *tree, uint8_t first, uint8_t second)
{
    struct outcome outcome = {0};
    if (first >= run->count || second >= run->count) {
        outcome.number = 8;
    } else if (first == second) {
        struct worker *worker = &run->workers[first];
        uint32_t step;
        outcome.number = run->policy == WORK_FIRST ? run_step(run, tree, WORK_FIRST, worker, &step)
                                                   : run_step(run, tree, HELP_FIRST, worker, &step);
        if (outcome.number == 0) {
            outcome.what = 1;
            outcome.phase = worker->phase;
            outcome.step = step;
        }
    } else {
        uint32_t number;
        outcome.number = run->policy == WORK_FIRST ? steal(run, tree, WORK_FIRST, first, second, &number)
                                                   : steal(run, tree, HELP_FIRST, first, second, &number);
        if (outcome.number == 0) {
            outcome.what = 2;
            outcome.trace = number;
        }
    }
    return outcome;
}

// ---- Replay ----

struct replay {
    moves moves;
    // For each worker its latest phase, and for each phase its worker and its first step.
    uint16_t latest[WORKERS];
    uint8_t worker[MOST_STEALS + 1];
    uint16_t first[MOST_STEALS + 1];
    size_t phases;
    // Work-first: a phase is an interval up to its limit, and its frontier task is walked from `base`, which has this ordinal.
    uint16_t limit[MOST_STEALS + 1];
    uint16_t base[MOST_STEALS + 1];
    uint16_t ordinal[MOST_STEALS + 1];
    // Help-first: for each step the one that holds or pushes it, and, if it can be stolen no more, its phase.
    uint16_t opener[MOST_STEPS + 1];
    uint16_t label[MOST_STEPS];
};

// The step that an ordinal names in a work-first phase, or NONE.
static inline size_t by_ordinal(struct replay *replay, size_t phase, size_t number)
{
    if (number <= replay->ordinal[phase])
        return NONE;
    size_t step = replay->base[phase], before = step;
    for (size_t left = number - replay->ordinal[phase]; left > 0; left--) {
        before = step;
        step = pushed_by(replay->moves[step]);
        if (step == 0)
            return NONE;
    }
    size_t new = replay->phases;
    replay->base[new] = step;
    replay->ordinal[new] = number;
    replay->limit[new] = replay->limit[phase];
    replay->base[phase] = before + 1;
    replay->ordinal[phase] = 0;
    replay->limit[phase] = step;
    return step;
}

// The step that a serial number names in a help-first phase, or NONE. The steps above it are labelled up to a labelled one,
// which tells whose it was.
static inline size_t by_serial(struct replay *replay, const uint8_t *tree, size_t n, size_t phase, size_t step)
{
    if (step == 0 || step >= n)
        return NONE;
    size_t opener = replay->opener[step];
    if (kind_at(tree, opener) != (step == opener + 1 ? ASYNC : FINISH) || replay->label[step] != NONE)
        return NONE;
    size_t above = opener;
    while (replay->label[above] == NONE) {
        replay->label[above] = phase;
        above = replay->opener[above];
    }
    if (replay->label[above] != phase)
        return NONE;
    replay->label[step] = replay->phases;
    return step;
}

static inline struct refusal read_trace(struct replay *replay, const uint8_t *tree, size_t n, unsigned policy, size_t workers,
                                        const uint8_t *trace, size_t count)
{
    memset(replay->latest, 255, sizeof replay->latest);
    replay->latest[0] = 0;
    replay->worker[0] = 0;
    replay->first[0] = 0;
    replay->phases = 1;
    if (policy == WORK_FIRST) {
        replay->limit[0] = n;
        replay->base[0] = 0;
        replay->ordinal[0] = 0;
    } else {
        memset(replay->label, 255, n * sizeof replay->label[0]);
        replay->label[0] = 0;
    }
    for (size_t at = 0; at < count; at++) {
        size_t thief = trace[4 * at], victim = trace[4 * at + 1];
        if (thief >= workers || victim >= workers)
            return (struct refusal){8, at};
        if (thief == victim)
            return (struct refusal){13, at};
        size_t phase = replay->latest[victim];
        if (phase == NONE)
            return (struct refusal){14, at};
        uint16_t number;
        memcpy(&number, trace + 4 * at + 2, sizeof number);
        size_t step = policy == WORK_FIRST ? by_ordinal(replay, phase, number) : by_serial(replay, tree, n, phase, number);
        if (step == NONE)
            return (struct refusal){15, at};
        replay->worker[replay->phases] = thief;
        replay->first[replay->phases] = step;
        replay->latest[thief] = replay->phases++;
    }
    return (struct refusal){0, 0};
}

static inline void put(uint8_t *list, size_t at, uint32_t phase, uint32_t step)
{
    uint32_t record = phase | step << 16;
    memcpy(list + 4 * at, &record, sizeof record);
}

// Counts a phase in the bucket of its load, where there is a histogram. Of the limits from 4 b to 4 b + 3, where b is the load's
// highest bit, the first is 2 to the power b; each other one is that of bit 43, shifted.
static inline void count_load(struct histogram *histogram, uint64_t load)
{
    if (histogram == NULL)
        return;
    size_t bucket = 0;
    if (load != 0) {
        unsigned bit = 63 - __builtin_clzll(load), shift = 43 - bit;
        bucket = 4 * bit + 1 + (load >= 10460376406235u >> shift) + (load >= 12439554047901u >> shift)
                 + (load >= 14793206181225u >> shift);
    }
    histogram->counts[bucket]++;
}

// Writes the list and adds up the loads.
static inline void list_intervals(const struct replay *replay, const uint8_t *tree, uint8_t *restrict list,
                                  uint64_t *restrict loads, struct histogram *histogram)
{
    for (size_t phase = 0; phase < replay->phases; phase++) {
        size_t first = replay->first[phase], count = replay->limit[phase] - first;
        uint64_t load = 0;
        for (size_t at = 0; at < count; at++) {
            put(list, at, phase, first + at);
            load += weight_of(record_at(tree, first + at));
        }
        list += 4 * count;
        loads[replay->worker[phase]] += load;
        count_load(histogram, load);
    }
}

// The same under help-first: each phase is run alone, with a stack of what it has pushed.
static inline void list_runs(struct replay *replay, const uint8_t *tree, uint8_t *restrict list, uint64_t *restrict loads,
                             struct histogram *histogram)
{
    uint16_t stack[MOST_STEALS + 1];
    for (size_t phase = 1; phase < replay->phases; phase++)
        replay->moves[replay->opener[replay->first[phase]]] |= DROPPED;
    for (size_t phase = 0; phase < replay->phases; phase++) {
        uint64_t load = 0;
        uint32_t step = replay->first[phase];
        uint16_t *top = stack;
        for (;;) {
            put(list, 0, phase, step);
            list += 4;
            load += weight_of(record_at(tree, step));
            uint32_t move = replay->moves[step];
            if (move != 0) {
                *top = pushed_by(move);
                top += move < DROPPED;
                step = held_by(move);
            } else if (top != stack) {
                step = *--top;
            } else {
                break;
            }
        }
        loads[replay->worker[phase]] += load;
        count_load(histogram, load);
    }
}

// The call, with a histogram or without: the compiler makes one function of each.
__attribute__((always_inline)) static inline struct replayed replay_call(const uint8_t *tree, size_t tree_length, uint8_t policy,
                                                                         uint8_t workers, const uint8_t *trace,
                                                                         size_t trace_length, uint8_t *list, size_t list_length,
                                                                         struct histogram *histogram)
{
    struct replay replay;
    struct replayed answer = {0};
    size_t n = tree_length / TREE_RECORD;
    struct refusal refusal = read_tree(tree, tree_length, policy, workers, replay.moves, replay.opener);
    if (refusal.number == 0 && (trace_length % 4 != 0 || trace_length > 4 * MOST_STEALS))
        refusal.number = 6;
    if (refusal.number == 0 && list_length < 4 * n)
        refusal.number = 7;
    if (refusal.number == 0)
        refusal = policy == WORK_FIRST ? read_trace(&replay, tree, n, WORK_FIRST, workers, trace, trace_length / 4)
                                       : read_trace(&replay, tree, n, HELP_FIRST, workers, trace, trace_length / 4);
    if (refusal.number == 0 && histogram != NULL && histogram->traces >= MOST_TRACES)
        refusal.number = 17;
    answer.number = refusal.number;
    answer.position = refusal.position;
    if (refusal.number != 0)
        return answer;
    if (policy == WORK_FIRST)
        list_intervals(&replay, tree, list, answer.loads, histogram);
    else
        list_runs(&replay, tree, list, answer.loads, histogram);
    answer.phases = replay.phases;
    answer.heaviest = heaviest(answer.loads);
    add_classes(tree, n, answer.loads, answer.class_loads);
    return answer;
}

struct replayed tuned_replay(const uint8_t *tree, size_t tree_length, uint8_t policy, uint8_t workers, const uint8_t *trace,
                             size_t trace_length, uint8_t *list, size_t list_length)
{
    return replay_call(tree, tree_length, policy, workers, trace, trace_length, list, list_length, NULL);
}

struct added tuned_histogram_add(struct histogram histogram, const uint8_t *tree, size_t tree_length, uint8_t policy,
                                 uint8_t workers, const uint8_t *trace, size_t trace_length, uint8_t *list, size_t list_length)
{
    struct added added;
    added.histogram = histogram;
    added.replayed = replay_call(tree, tree_length, policy, workers, trace, trace_length, list, list_length, &added.histogram);
    added.histogram.traces += added.replayed.number == 0;
    return added;
}

// ---- Work and span ----

// The end of a step: the time in the upper bits, and in the lower 16 the count of steps from this one on, which names the step.
// So of equal times the earlier step's is the greater end. Step 0 starts with 0.
enum { TIME = 16 };
static const uint64_t STEP = (1 << TIME) - 1;

// Refusals 2 to 5 of a tree that has one of them.
__attribute__((noinline, cold)) static struct spanned refused_tree(const uint8_t *tree, size_t length)
{
    moves moves;
    struct refusal refusal = read_records(tree, length, WORK_FIRST, moves, NULL);
    return (struct spanned){.number = refusal.number, .position = refusal.position};
}

// Writes the chain that leads to this end, and gives its length. It is found from its last step on, so it has to be moved.
static inline size_t put_chain(const uint8_t *tree, size_t n, const uint16_t *before, uint64_t last, uint8_t *chain)
{
    uint16_t steps[MOST_STEPS], *first = steps + MOST_STEPS;
    size_t step = last & STEP;
    // It ends with the last step that has a weight.
    while (step != n && weight_of(record_at(tree, n - step)) == 0)
        step = before[step];
    for (; step != n; step = before[step])
        *--first = n - step;
    *--first = 0;
    size_t length = steps + MOST_STEPS - first;
    memcpy(chain, first, 2 * length);
    return length;
}

// A step starts with one end: that of the step before it in its task, of the spawning step or, behind a finish child, the
// greatest end of a task of that child and its async descendants. Of those that are equally late the chain to the earliest is the
// one asked for: where two chains part, it goes into a child, and the other one passes by all steps of the child. So the chain
// is known, backwards, from the end that each step starts with.
struct spanned tuned_span(const uint8_t *tree, size_t tree_length, uint8_t *chain, size_t chain_length)
{
    size_t n = tree_length / TREE_RECORD;
    if (tree_length == 0 || tree_length % TREE_RECORD != 0 || n > MOST_STEPS)
        return refused_tree(tree, tree_length);
    // For each step, by the steps from it on, the one whose end it starts with.
    uint16_t before[MOST_STEPS + 1];
    // For each open task, from the root on, what its end brings back: for an async child the end that its parent goes on with, for
    // a finish child the greatest end outside. The root is taken for a finish child.
    uint64_t kept[MOST_OPEN];
    uint8_t kinds[MOST_OPEN];
    size_t open = 1;
    kept[0] = 0;
    kinds[0] = FINISH;
    // The end that the next step starts with, and the greatest of a task that the innermost finish child waits for.
    uint64_t now = 0, greatest = 0, work = 0;
    uint32_t bytes = 0;
    for (size_t left = n; left > 0; left--) {
        uint64_t record = record_at(tree, n - left), weight = weight_of(record);
        uint32_t kind = record & 255;
        bytes |= record;
        work += weight;
        before[left] = now;
        uint64_t end = (now & ~STEP) + (weight << TIME | left);
        if (kind == END) {
            if (open == 0)
                return refused_tree(tree, tree_length);
            if (greatest < end)
                greatest = end;
            now = kept[--open];
            if (kinds[open] == FINISH) {
                uint64_t outside = now;
                now = greatest;
                greatest = outside;
            }
        } else {
            // The first opening behind the root's end is refused as one too many.
            if (kind - ASYNC > FINISH - ASYNC || open - 1 >= MOST_OPEN - 1)
                return refused_tree(tree, tree_length);
            now = end;
            kinds[open] = kind;
            if (kind == FINISH) {
                kept[open] = greatest;
                greatest = 0;
            } else {
                kept[open] = end;
            }
            open++;
        }
    }
    // Bytes 1 to 3 of all records at once.
    if (open != 0 || bytes >= 16 << 8)
        return refused_tree(tree, tree_length);
    if (chain_length < 2 * n)
        return (struct spanned){.number = 7};
    return (struct spanned){0, 0, work, now >> TIME, put_chain(tree, n, before, now, chain)};
}
