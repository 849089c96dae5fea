/* Many threads write to a small ring at once, and the dump comes while they write. Each record that is printed has to be
 * whole: its length and its block time belong together, and to its task.
 * SPDX-License-Identifier: MIT OR Apache-2.0
 */
#include "demo.h"

enum { TASKS = 6, CALLS = 20000 };

static char handles[TASKS];         /* of the objects: any address will do */
static unsigned lines;
static unsigned torn;

static void writer(void *argument)
{
    unsigned which = (unsigned) ((const char *) argument - handles);
    unsigned n;
    for (n = 0u; n < CALLS; n++) {
        unsigned length = 1u + (n % 60000u);
        fr_trace_enter(FR_BUFFER_SEND, argument, length, (3u * length) + which);
        fr_trace_enter(FR_SUSPEND_ALL, NULL, 0u, 0u);
        fr_trace_return(0u);
        fr_trace_return(length);
    }
    stub_end_scheduler();           /* the first one that is done: the others still write */
    vTaskDelete(NULL);
}

static void look_at(const char *line)
{
    unsigned task;
    unsigned object;
    unsigned length;
    unsigned ticks;
    lines++;
    if ((sscanf(line, "w%u enter xStreamBufferSend(o%u, %u, %u)", &task, &object, &length, &ticks) == 4) &&
        ((task != object) || (ticks != ((3u * length) + task)))) {
        torn++;
    }
    demo_line(line);
}

int main(int argc, char **argv)
{
    static char names[TASKS][2][4];
    unsigned i;
    int status;
    for (i = 0u; i < TASKS; i++) {
        (void) snprintf(names[i][0], sizeof names[i][0], "w%u", i);
        (void) snprintf(names[i][1], sizeof names[i][1], "o%u", i);
        (void) xTaskCreate(writer, names[i][0], 100u, &handles[i], 1u, NULL);
        fr_trace_name(&handles[i], names[i][1], FR_STREAM);
    }
    status = demo_run(argc, argv, look_at);
    if ((torn != 0u) || (lines < 30u)) {
        (void) fprintf(stderr, "%u lines, %u torn\n", lines, torn);
        status = 1;
    }
    return status;
}
