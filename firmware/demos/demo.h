/* What each demo uses: the stub of the kernel, and a file for the trace.
 * SPDX-License-Identifier: MIT OR Apache-2.0
 */
#ifndef DEMO_H
#define DEMO_H

#include <stdatomic.h>
#include <stdio.h>
#include <stdlib.h>

#include "FreeRTOS.h"
#include "task.h"
#if FR_TRACE_WRAPPED
#include "fr_wrap.h"
#endif

static FILE *demo_file;

static void demo_line(const char *line)
{
    (void) fprintf(demo_file, "%s\n", line);
}

/* Runs the tasks until one of them ends the scheduler, and writes the trace to the file that the argument names. */
static int demo_run(int argc, char **argv, void (*print_line)(const char *line))
{
    if (argc != 2) {
        (void) fprintf(stderr, "usage: %s TRACE\n", argv[0]);
        return 2;
    }
    vTaskStartScheduler();
    demo_file = fopen(argv[1], "w");
    if (demo_file == NULL) {
        perror(argv[1]);
        return 3;
    }
    fr_trace_dump(print_line);
    return (fclose(demo_file) == 0) ? 0 : 3;
}

#endif
