/* Two tasks write records to one message buffer, a third one reads them. When the power goes, an interrupt says stop, and
 * the logger waits for both writers before it deletes the buffer. logger.frc is its application.
 * SPDX-License-Identifier: MIT OR Apache-2.0
 *
 * -DMARKS        writes of the shared variables are marked, and so are begin and end of the handler
 * -DLATE         the handler does nothing in its first three runs, and the application says that each run sets `stop`
 * -DWAIT=10      the logger waits for 10 ticks, and the application says 100
 * -DSHELL        one more task sends to the buffer, which the application doesn't list
 * -DHASTY        the logger doesn't wait for the writers: one of them sends to the buffer that it has deleted.
 *                hasty_logger.frc is the application of this one
 */
#include "demo.h"

#ifndef WAIT
#define WAIT 100u
#endif
#ifdef MARKS
#define MARK(variable, value) fr_mark(variable, value)
#define BEGIN() fr_isr_begin()
#define END() fr_isr_end()
#else
#define MARK(variable, value)
#define BEGIN()
#define END()
#endif
#ifdef LATE
#define FIRST_RUN 4
#else
#define FIRST_RUN 1
#endif

enum { RECORDS = 60 };

static MessageBufferHandle_t logged;
static atomic_int stop;
static atomic_int a_done;
static atomic_int b_done;
/* The power stays on until writer_a has sent its records, and the task without a line has come. */
#ifdef SHELL
static atomic_int to_come = 2;
#else
static atomic_int to_come = 1;
#endif
#ifdef HASTY
static atomic_int is_deleted;
#endif

static void power_fails(void)
{
    static unsigned runs;

    if (to_come > 0) {
        return;
    }
    BEGIN();
    runs++;
    if (runs >= FIRST_RUN) {
        stop = 1;
        MARK(stop, 1);
    }
    END();
}

static void write_record(void)
{
    static const char record[24] = "a record of 24 bytes";

    taskENTER_CRITICAL();
    (void) xMessageBufferSend(logged, record, sizeof record, 0u);
    taskEXIT_CRITICAL();
    vTaskDelay(10u);
}

static void writer_a(void *argument)
{
    unsigned records = 0u;
    (void) argument;
    while (stop != 1) {
        records++;
        if (records == RECORDS) {
            to_come--;
#ifdef HASTY
            while (!is_deleted) {
                stub_pause_us(100u);        /* others come between */
            }
#endif
        }
        write_record();
    }
    a_done = 1;
    MARK(a_done, 1);
    vTaskDelete(NULL);
}

static void writer_b(void *argument)
{
    (void) argument;
    while (stop != 1) {
        write_record();
    }
    b_done = 1;
    MARK(b_done, 1);
    vTaskDelete(NULL);
}

static void logger(void *argument)
{
    char record[32];
    size_t got;
    (void) argument;

    do {
        got = xMessageBufferReceive(logged, record, 32u, WAIT);
#ifdef HASTY
    } while ((got > 0u) || (stop == 0));
#else
    } while ((got > 0u) || (a_done == 0) || (b_done == 0));
#endif
    do {
        got = xMessageBufferReceive(logged, record, 32u, 0u);       /* what came while it looked */
    } while (got > 0u);
#ifdef HASTY
    while (!b_done) {
        stub_pause_us(100u);        /* it is the other writer that comes too late */
    }
#endif
    vMessageBufferDelete(logged);
#ifdef HASTY
    is_deleted = 1;
    while (!a_done) {
        stub_pause_us(100u);
    }
#endif
    stub_end_scheduler();
    vTaskDelete(NULL);
}

#ifdef SHELL
static void shell(void *argument)
{
    (void) argument;
    vTaskDelay(30u);
    (void) xMessageBufferSend(logged, "hello", 5u, 0u);
    to_come--;
    vTaskDelete(NULL);
}
#endif

int main(int argc, char **argv)
{
    logged = xMessageBufferCreate(256u);
    fr_trace_name(logged, "log", FR_MESSAGE);
    fr_trace_irq(7u, "power_fails");
    (void) xTaskCreate(writer_a, "writer_a", 100u, NULL, 1u, NULL);
    (void) xTaskCreate(writer_b, "writer_b", 100u, NULL, 1u, NULL);
    (void) xTaskCreate(logger, "logger", 100u, NULL, 1u, NULL);
#ifdef SHELL
    (void) xTaskCreate(shell, "shell", 100u, NULL, 1u, NULL);
#endif
    stub_interrupt(7u, power_fails, 10000u);
    return demo_run(argc, argv, demo_line);
}
