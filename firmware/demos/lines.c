/* One thread acts as each task and interrupt in turn, so that its trace is always the same: lines.trace. It has each kind
 * of line, and names that come late, again, or never.
 * SPDX-License-Identifier: MIT OR Apache-2.0
 */
#include "demo.h"

static TaskHandle_t make_task(const char *name)
{
    TaskHandle_t made = NULL;
    (void) xTaskCreate(NULL, name, 100u, NULL, 1u, &made);
    return made;
}

static void use_queue(QueueHandle_t queue, const void *item, void *room)
{
    (void) xQueueSend(queue, item, 0u);
    (void) xQueueReceive(queue, room, 5u);
}

static void queues(void)
{
    QueueHandle_t bytes = xQueueCreate(1u, 1u);
    QueueHandle_t halves = xQueueCreate(1u, 2u);
    QueueHandle_t words = xQueueCreate(1u, 4u);
    QueueHandle_t unsigned_words = xQueueCreate(1u, 4u);
    QueueHandle_t structs = xQueueCreate(1u, 8u);
    int8_t byte = -128;
    int16_t half = -2;
    int32_t word = INT32_MIN;
    uint32_t unsigned_word = UINT32_MAX;
    uint8_t room[8] = { 0 };

    fr_trace_queue(bytes, "bytes", 1u, 1);
    fr_trace_queue(halves, "halves", 2u, 1);
    fr_trace_queue(words, "words", 4u, 1);
    fr_trace_queue(unsigned_words, "unsigned_words", 4u, 0);
    fr_trace_name(structs, "structs", FR_QUEUE);
    use_queue(bytes, &byte, room);
    use_queue(halves, &half, room);
    use_queue(words, &word, room);
    use_queue(unsigned_words, &unsigned_word, room);
    use_queue(structs, room, room);
    (void) xQueueReceive(bytes, &byte, 0u);             /* empty: 0, and no value */
    (void) xQueueSendToFront(bytes, &byte, portMAX_DELAY);
    vQueueDelete(bytes);
}

static void semaphores(void)
{
    SemaphoreHandle_t mutex = xSemaphoreCreateMutex();
    SemaphoreHandle_t nested = xSemaphoreCreateRecursiveMutex();
    SemaphoreHandle_t ready = xSemaphoreCreateBinary();
    fr_trace_name(mutex, "mutex_1", FR_SEMAPHORE);
    fr_trace_name(nested, "nested", FR_SEMAPHORE);
    fr_trace_name(ready, "ready", FR_SEMAPHORE);
    (void) xSemaphoreTake(mutex, 2147483647u);
    (void) xSemaphoreGive(mutex);
    (void) xSemaphoreTakeRecursive(nested, portMAX_DELAY);
    (void) xSemaphoreGiveRecursive(nested);
    (void) xSemaphoreGiveRecursive(nested);
    vSemaphoreDelete(mutex);
    stub_act_as(NULL, 22u);                             /* an interrupt without a name, on an object that has one */
    (void) taskENTER_CRITICAL_FROM_ISR();
    (void) xSemaphoreGiveFromISR(ready, NULL);
    (void) xSemaphoreTakeFromISR(ready, NULL);
    taskEXIT_CRITICAL_FROM_ISR(0u);
}

static void buffers(void)
{
    char room[16];
    StreamBufferHandle_t first = xStreamBufferCreate(16u, 1u);
    MessageBufferHandle_t second;
    fr_trace_name(first, "first", FR_STREAM);
    (void) xStreamBufferSend(first, "data", 4u, 1u);
    (void) xStreamBufferReceive(first, room, 16u, 0u);
    vStreamBufferDelete(first);
    second = xMessageBufferCreate(16u);                 /* at the same address */
    fr_trace_name(second, "second", FR_MESSAGE);
    (void) xMessageBufferSend(second, "data", 4u, 0u);
    (void) xMessageBufferReceive(second, room, 16u, 0u);
    vMessageBufferDelete(second);
    second = xMessageBufferCreate(16u);                 /* and now without a name */
    vMessageBufferDelete(second);
    first = xStreamBufferCreate(16u, 1u);               /* the first one again */
    fr_trace_name(first, "first", FR_STREAM);
    vStreamBufferDelete(first);
}

static void names_of_tasks(TaskHandle_t worker)
{
    TaskHandle_t again;
    stub_act_as(make_task("Own Name"), 0u);
    vTaskDelay(1u);
    fr_trace_task(NULL, "given_name");
    vTaskDelay(2u);
    vTaskDelete(worker);
    stub_act_as(worker, 0u);
    vTaskDelete(NULL);
    again = make_task("worker");                        /* another handle, the same actor */
    stub_act_as(again, 0u);
    vTaskDelay(3u);
    stub_act_as(make_task("IDLE0"), 0u);
    vTaskDelay(4u);                                     /* not recorded */
    stub_act_as(make_task("Tmr Svc"), 0u);
    vTaskDelay(5u);                                     /* not recorded */
    fr_callback_begin();
    vTaskDelay(6u);
    fr_callback_end();
    vTaskDelay(7u);                                     /* not recorded */
}

/* Calls that aren't recorded, and a call that stands for another one. */
static void other_calls(TaskHandle_t worker)
{
    static char note;
    stub_act_as(worker, 0u);
    fr_trace_name(&note, "note", FR_SEMAPHORE);
    traceENTER_xTaskGenericNotify(NULL, 0, 0, 0, NULL);
    taskENTER_CRITICAL();
    taskEXIT_CRITICAL();
    traceRETURN_xTaskGenericNotify(pdPASS);
    fr_trace_enter(FR_GIVE, &note, 0u, 0u);
    taskENTER_CRITICAL();
    taskEXIT_CRITICAL();
    fr_trace_return(1u);
    fr_trace_enter(FR_TAKE, &note, 0u, 9u);                        /* a way out without a hook */
    vTaskDelay(8u);
    traceENTER_vTaskDelay(portMAX_DELAY);               /* recorded as ?: an application has no such delay */
    traceRETURN_vTaskDelay();
}

int main(int argc, char **argv)
{
    TaskHandle_t worker = make_task("worker");
    fr_trace_irq(7u, "uart");
    fr_trace_quiet("Tmr_Svc");
    fr_trace_start();
    stub_act_as(worker, 0u);
    taskENTER_CRITICAL();
    taskEXIT_CRITICAL();
    vTaskSuspendAll();
    (void) xTaskResumeAll();
    taskYIELD();
    queues();
    semaphores();
    stub_act_as(worker, 0u);
    buffers();
    stub_act_as(NULL, 7u);
    fr_isr_begin();
    fr_mark(level, -1);
    fr_isr_end();
    other_calls(worker);
    names_of_tasks(worker);
    stub_end_scheduler();
    return demo_run(argc, argv, demo_line);
}
