/* A program that asks about a tree and does nothing else: tests/c-example looks at what the linker takes for it. */
#include "../../include/frame.h"

int main(void)
{
    const uint8_t tree[FRAME_TREE_BYTES(3)] = { [0] = FRAME_ASYNC, [1] = 7, [4] = 5, [8] = FRAME_END, [16] = FRAME_END };
    FrameTask task = frame_task(tree, sizeof tree, 2);
    FrameRunning running = frame_running(tree, sizeof tree, FRAME_WORK_FIRST, 0);
    int right = frame_tree(tree, sizeof tree).steps == 3 && frame_kind(tree, sizeof tree, 0) == FRAME_ASYNC;
    right = right && frame_class(tree, sizeof tree, 0) == 7 && frame_class(tree, sizeof tree, 1) == 0;
    right = right && frame_weight(tree, sizeof tree, 0) == 5 && frame_cont(tree, sizeof tree, 0) == 2;
    right = right && task.first == 0 && task.ordinal == 1 && frame_finish_before(tree, sizeof tree, 2) == 0;
    right = right && running.opens == 1 && running.hold == 1 && running.push == 2;
    return !right;
}
