/* A producer sends -4 to 4 over and over, and a consumer receives them. An interrupt gives a semaphore to a third task, which
 * shares a mutex with the consumer, and makes and deletes a stream buffer again and again. queues.frc is the application.
 * SPDX-License-Identifier: MIT OR Apache-2.0
 *
 * -DUNNAMED: the stream buffer has no name in the trace
 */
#include <stdint.h>

#include "demo.h"

enum { ROUNDS = 150 };

static QueueHandle_t queue;
static SemaphoreHandle_t mutex;
static SemaphoreHandle_t nested;
static SemaphoreHandle_t ready;

static void timer(void)
{
    (void) xSemaphoreGiveFromISR(ready, NULL);
}

static void producer(void *argument)
{
    int16_t value = -4;
    (void) argument;

    for (;;) {
        if (xQueueSend(queue, &value, 20u) != pdPASS) {
            continue;
        }
        if (value == 4) {
            value = -4;
        } else {
            value++;
        }
    }
}

static void consumer(void *argument)
{
    int16_t value;
    (void) argument;

    for (;;) {
        (void) xQueueReceive(queue, &value, portMAX_DELAY);
        if (value > 0) {
            continue;
        }
        (void) xSemaphoreTake(mutex, portMAX_DELAY);
        vTaskDelay(1u);
        (void) xSemaphoreGive(mutex);
    }
}

static void user(void *argument)
{
    unsigned rounds;
    unsigned i;
    (void) argument;

    for (rounds = 0u;; rounds++) {
        StreamBufferHandle_t own;
        if (xSemaphoreTake(ready, 50u) != pdPASS) {
            continue;
        }
        if (xSemaphoreTake(mutex, 5u) != pdPASS) {
            continue;
        }
        (void) xSemaphoreTakeRecursive(nested, portMAX_DELAY);
        (void) xSemaphoreTakeRecursive(nested, portMAX_DELAY);
        (void) xSemaphoreGiveRecursive(nested);
        (void) xSemaphoreGiveRecursive(nested);
        (void) xSemaphoreGive(mutex);
        own = xStreamBufferCreate(16u, 1u);
        if (own == NULL) {
            continue;
        }
#ifndef UNNAMED
        fr_trace_name(own, "own", FR_STREAM);
#endif
        for (i = 0u; i < 3u; i++) {
            (void) xStreamBufferSend(own, "data", 4u, 0u);
        }
        vStreamBufferDelete(own);
        if (rounds > ROUNDS) {
            stub_end_scheduler();
        }
        taskYIELD();
    }
}

int main(int argc, char **argv)
{
    queue = xQueueCreate(4u, sizeof(int16_t));
    mutex = xSemaphoreCreateMutex();
    nested = xSemaphoreCreateRecursiveMutex();
    ready = xSemaphoreCreateBinary();
    fr_trace_queue(queue, "queue_1", sizeof(int16_t), 1);
    fr_trace_name(mutex, "mutex_1", FR_SEMAPHORE);
    fr_trace_name(nested, "nested", FR_SEMAPHORE);
    fr_trace_name(ready, "ready", FR_SEMAPHORE);
    fr_trace_irq(33u, "timer");
    (void) xTaskCreate(producer, "producer", 100u, NULL, 1u, NULL);
    (void) xTaskCreate(consumer, "consumer", 100u, NULL, 1u, NULL);
    (void) xTaskCreate(user, "user", 100u, NULL, 1u, NULL);
    stub_interrupt(33u, timer, 1500u);
    return demo_run(argc, argv, demo_line);
}
