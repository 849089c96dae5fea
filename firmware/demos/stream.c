/* An interrupt feeds a stream buffer with a text, and a task looks for a word in what comes. stream.frc is its application.
 * SPDX-License-Identifier: MIT OR Apache-2.0
 *
 * -DBYTES=5: the interrupt sends 5 bytes at a time, and the application says 4.
 */
#include "demo.h"

#ifndef BYTES
#define BYTES 4u
#endif

enum { CALLS_BETWEEN_SENDS = 10, WORDS = 40 };

static StreamBufferHandle_t stream;
static const char text[] = "____Hello FreeRTOS______";

static void tick(void)
{
    static unsigned call_count;
    static unsigned next_to_send;

    call_count++;
    if (call_count > CALLS_BETWEEN_SENDS) {
        call_count = 0u;
        (void) xStreamBufferSendFromISR(stream, &text[next_to_send], BYTES, NULL);
        next_to_send += 4u;
        if (next_to_send >= 24u) {
            next_to_send = 0u;
        }
    }
}

static void rx(void *argument)
{
    char word[20];
    unsigned next_byte = 0u;
    unsigned words = 0u;
    (void) argument;

    for (;;) {
        (void) xStreamBufferReceive(stream, &word[next_byte], 1u, portMAX_DELAY);
        if (next_byte == 0u) {
            if (word[0] != 'H') {
                continue;
            }
        } else {
            if (word[next_byte] == 'S') {
                next_byte = 0u;
                words++;
                if (words == WORDS) {
                    stub_end_scheduler();
                }
                continue;
            }
            if (next_byte == 19u) {
                stub_end_scheduler();   /* configASSERT: it goes no further */
                for (;;) {
                    stub_pause_us(1000u);
                }
            }
        }
        next_byte++;
    }
}

int main(int argc, char **argv)
{
    stream = xStreamBufferCreate(100u, 10u);
    fr_trace_name(stream, "stream", FR_STREAM);
    fr_trace_irq(15u, "tick");
    (void) xTaskCreate(rx, "rx", 100u, NULL, 1u, NULL);
    stub_interrupt(15u, tick, 20u);
    return demo_run(argc, argv, demo_line);
}
