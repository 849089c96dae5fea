/* A stub of the kernel on POSIX threads. It is not FreeRTOS: it has the hooks where the kernel V11 has them, and its
 * functions call one another as those of the kernel do, so that the recorder sees nested calls.
 * SPDX-License-Identifier: MIT OR Apache-2.0
 *
 * One lock stands for the kernel's own, a recursive one for the critical section of all cores. A task is a thread, and so
 * is each interrupt: more can happen at a time than on any target. What is deleted keeps its memory until the next create
 * of its kind, which gets the same address.
 */
#define _POSIX_C_SOURCE 200809L

#include <errno.h>
#include <pthread.h>
#include <sched.h>
#include <stdatomic.h>
#include <stdlib.h>
#include <string.h>
#include <time.h>

#include "task.h"

struct tskTaskControlBlock {
    TaskFunction_t code;
    void *argument;
    char pcTaskName[configMAX_TASK_NAME_LEN];
};

struct QueueDefinition {
    UBaseType_t length;
    UBaseType_t uxItemSize;
    UBaseType_t count;
    UBaseType_t head;
    TaskHandle_t holder;            /* of a recursive mutex */
    unsigned depth;
    uint8_t *items;
};

struct StreamBufferDef_t {
    size_t size;
    size_t used;
    size_t head;
    int is_message;
    uint8_t *bytes;
};

struct interrupt {
    unsigned number;
    unsigned every_us;
    void (*handler)(void);
};

enum { MOST_TASKS = 16, MOST_INTERRUPTS = 8, TICK_US = 100, MOST_MS = 1500 };

static pthread_mutex_t kernel = PTHREAD_MUTEX_INITIALIZER;
static pthread_cond_t changed = PTHREAD_COND_INITIALIZER;
static pthread_mutex_t critical_section;
static pthread_once_t has_critical_section = PTHREAD_ONCE_INIT;
static struct tskTaskControlBlock tasks[MOST_TASKS];
static unsigned task_count;
static struct interrupt interrupts[MOST_INTERRUPTS];
static unsigned interrupt_count;
static StreamBufferHandle_t deleted_buffer;
static atomic_int is_running;
static atomic_int has_ended;

static _Thread_local TaskHandle_t this_task;
static _Thread_local unsigned this_interrupt;
static _Thread_local unsigned seed;

/* ---- Threads and time ---- */

void stub_pause_us(unsigned us)
{
    struct timespec time = { .tv_sec = us / 1000000u, .tv_nsec = (long) (us % 1000000u) * 1000L };
    (void) nanosleep(&time, NULL);
}

/* Now and then another thread goes first. */
static void stumble(void)
{
    unsigned dice;
    if (seed == 0u) {
        seed = (unsigned) (uintptr_t) &seed ^ (unsigned) time(NULL);
    }
    seed = (seed * 1103515245u) + 12345u;
    dice = (seed >> 16) & 15u;
    if (dice < 4u) {
        (void) sched_yield();
    } else if (dice == 5u) {
        stub_pause_us(30u);
    }
}

static void *run_task(void *argument)
{
    this_task = argument;
    while (!atomic_load(&is_running)) {
        stub_pause_us(50u);
    }
    this_task->code(this_task->argument);
    abort();                        /* a task never returns */
}

static void *run_interrupt(void *argument)
{
    const struct interrupt *source = argument;
    this_interrupt = source->number;
    while (!atomic_load(&is_running)) {
        stub_pause_us(50u);
    }
    for (;;) {
        stub_pause_us(source->every_us);
        stumble();
        source->handler();
    }
    return NULL;
}

static struct timespec after(TickType_t ticks)
{
    struct timespec time;
    (void) clock_gettime(CLOCK_REALTIME, &time);
    time.tv_nsec += (long) (ticks % 10000u) * TICK_US * 1000L;
    time.tv_sec += (time_t) (ticks / 10000u) + (time.tv_nsec / 1000000000L);
    time.tv_nsec %= 1000000000L;
    return time;
}

/* With the kernel's lock: waits for a change. False where the block time is over. */
static int wait_for_change(const struct timespec *end, TickType_t ticks)
{
    if (ticks == 0u) {
        return 0;
    }
    if (ticks == portMAX_DELAY) {
        return pthread_cond_wait(&changed, &kernel) == 0;
    }
    return pthread_cond_timedwait(&changed, &kernel, end) != ETIMEDOUT;
}

unsigned stub_interrupt_number(void)
{
    return this_interrupt;
}

void stub_interrupt(unsigned number, void (*handler)(void), unsigned every_us)
{
    interrupts[interrupt_count] = (struct interrupt) { number, every_us, handler };
    interrupt_count++;
}

#ifdef STUB_LOCK
static pthread_mutex_t spin_lock = PTHREAD_MUTEX_INITIALIZER;

unsigned stub_lock(void)
{
    (void) pthread_mutex_lock(&spin_lock);
    return 0u;
}

void stub_unlock(unsigned state)
{
    (void) state;
    (void) pthread_mutex_unlock(&spin_lock);
}
#endif

void stub_act_as(TaskHandle_t task, unsigned interrupt)
{
    this_task = task;
    this_interrupt = interrupt;
}

void stub_end_scheduler(void)
{
    atomic_store(&has_ended, 1);
}

/* ---- tasks.c ---- */

BaseType_t xTaskCreate(TaskFunction_t code, const char *name, unsigned stack, void *argument, UBaseType_t priority, TaskHandle_t *made)
{
    struct tskTaskControlBlock *pxNewTCB = &tasks[task_count];
    (void) stack;
    (void) priority;
    task_count++;
    pxNewTCB->code = code;
    pxNewTCB->argument = argument;
    (void) strncpy(pxNewTCB->pcTaskName, name, configMAX_TASK_NAME_LEN - 1);
    traceTASK_CREATE(pxNewTCB);
    if (made != NULL) {
        *made = pxNewTCB;
    }
    return pdPASS;
}

TaskHandle_t xTaskGetCurrentTaskHandle(void)
{
    return this_task;
}

void vTaskStartScheduler(void)
{
    pthread_t thread;
    unsigned i;
    for (i = 0; (i < task_count) && !atomic_load(&has_ended); i++) {
        (void) pthread_create(&thread, NULL, run_task, &tasks[i]);
    }
    for (i = 0; i < interrupt_count; i++) {
        (void) pthread_create(&thread, NULL, run_interrupt, &interrupts[i]);
    }
    traceSTARTING_SCHEDULER(NULL);
    atomic_store(&is_running, 1);
    for (i = 0; (i < MOST_MS) && !atomic_load(&has_ended); i++) {
        stub_pause_us(1000u);
    }
}

void vTaskDelay(TickType_t xTicksToDelay)
{
    traceENTER_vTaskDelay(xTicksToDelay);
    vTaskSuspendAll();
    (void) xTaskResumeAll();
    stub_pause_us(xTicksToDelay * TICK_US);
    traceRETURN_vTaskDelay();
}

void vTaskDelete(TaskHandle_t xTaskToDelete)
{
    traceENTER_vTaskDelete(xTaskToDelete);
    taskENTER_CRITICAL();
    taskEXIT_CRITICAL();
    while ((xTaskToDelete == NULL) && atomic_load(&is_running)) {
        stub_pause_us(1000000u);
    }
    traceRETURN_vTaskDelete();
}

void vTaskSuspendAll(void)
{
    traceENTER_vTaskSuspendAll();
    stumble();
    traceRETURN_vTaskSuspendAll();
}

BaseType_t xTaskResumeAll(void)
{
    traceENTER_xTaskResumeAll();
    taskENTER_CRITICAL();
    taskEXIT_CRITICAL();
    traceRETURN_xTaskResumeAll(pdFALSE);
    return pdFALSE;
}

void vPortYield(void)
{
    (void) sched_yield();
}

static void make_critical_section(void)
{
    pthread_mutexattr_t recursive;
    (void) pthread_mutexattr_init(&recursive);
    (void) pthread_mutexattr_settype(&recursive, PTHREAD_MUTEX_RECURSIVE);
    (void) pthread_mutex_init(&critical_section, &recursive);
}

void vPortEnterCritical(void)
{
    (void) pthread_once(&has_critical_section, make_critical_section);
    (void) pthread_mutex_lock(&critical_section);
}

void vPortExitCritical(void)
{
    (void) pthread_mutex_unlock(&critical_section);
}

UBaseType_t uxPortMaskFromISR(void)
{
    vPortEnterCritical();
    return 0u;
}

void vPortUnmaskFromISR(UBaseType_t mask)
{
    (void) mask;
    vPortExitCritical();
}

void vTaskEnterCritical(void)
{
    traceENTER_vTaskEnterCritical();
    vPortEnterCritical();
    stumble();
    traceRETURN_vTaskEnterCritical();
}

void vTaskExitCritical(void)
{
    traceENTER_vTaskExitCritical();
    vPortExitCritical();
    stumble();
    traceRETURN_vTaskExitCritical();
}

UBaseType_t vTaskEnterCriticalFromISR(void)
{
    UBaseType_t uxSavedInterruptStatus;
    traceENTER_vTaskEnterCriticalFromISR();
    uxSavedInterruptStatus = uxPortMaskFromISR();
    traceRETURN_vTaskEnterCriticalFromISR(uxSavedInterruptStatus);
    return uxSavedInterruptStatus;
}

void vTaskExitCriticalFromISR(UBaseType_t uxSavedInterruptStatus)
{
    traceENTER_vTaskExitCriticalFromISR(uxSavedInterruptStatus);
    vPortUnmaskFromISR(uxSavedInterruptStatus);
    traceRETURN_vTaskExitCriticalFromISR();
}

/* ---- queue.c ---- */

QueueHandle_t xQueueGenericCreate(UBaseType_t uxQueueLength, UBaseType_t uxItemSize, uint8_t ucQueueType)
{
    QueueHandle_t pxNewQueue;
    traceENTER_xQueueGenericCreate(uxQueueLength, uxItemSize, ucQueueType);
    pxNewQueue = calloc(1u, sizeof *pxNewQueue);
    if (pxNewQueue != NULL) {
        pxNewQueue->length = uxQueueLength;
        pxNewQueue->uxItemSize = uxItemSize;
        pxNewQueue->items = calloc(uxQueueLength, uxItemSize + 1u);
    }
    traceRETURN_xQueueGenericCreate(pxNewQueue);
    return pxNewQueue;
}

QueueHandle_t xQueueCreateMutex(uint8_t ucQueueType)
{
    QueueHandle_t xNewQueue;
    traceENTER_xQueueCreateMutex(ucQueueType);
    xNewQueue = xQueueGenericCreate(1u, 0u, ucQueueType);
    (void) xQueueGenericSend(xNewQueue, NULL, 0u, 0);
    traceRETURN_xQueueCreateMutex(xNewQueue);
    return xNewQueue;
}

static BaseType_t put_item(QueueHandle_t queue, const void *item, TickType_t ticks)
{
    struct timespec end = after(ticks);
    BaseType_t is_put = pdFALSE;
    stumble();
    (void) pthread_mutex_lock(&kernel);
    while ((queue->count == queue->length) && wait_for_change(&end, ticks)) {
    }
    if (queue->count < queue->length) {
        if (queue->uxItemSize != 0u) {
            (void) memcpy(&queue->items[((queue->head + queue->count) % queue->length) * queue->uxItemSize], item, queue->uxItemSize);
        }
        queue->count++;
        is_put = pdTRUE;
        (void) pthread_cond_broadcast(&changed);
    }
    (void) pthread_mutex_unlock(&kernel);
    stumble();
    return is_put;
}

static BaseType_t get_item(QueueHandle_t queue, void *item, TickType_t ticks)
{
    struct timespec end = after(ticks);
    BaseType_t is_got = pdFALSE;
    stumble();
    (void) pthread_mutex_lock(&kernel);
    while ((queue->count == 0u) && wait_for_change(&end, ticks)) {
    }
    if (queue->count != 0u) {
        if (queue->uxItemSize != 0u) {
            (void) memcpy(item, &queue->items[queue->head * queue->uxItemSize], queue->uxItemSize);
        }
        queue->head = (queue->head + 1u) % queue->length;
        queue->count--;
        is_got = pdTRUE;
        (void) pthread_cond_broadcast(&changed);
    }
    (void) pthread_mutex_unlock(&kernel);
    stumble();
    return is_got;
}

BaseType_t xQueueGenericSend(QueueHandle_t xQueue, const void *pvItemToQueue, TickType_t xTicksToWait, BaseType_t xCopyPosition)
{
    BaseType_t xReturn;
    traceENTER_xQueueGenericSend(xQueue, pvItemToQueue, xTicksToWait, xCopyPosition);
    taskENTER_CRITICAL();
    taskEXIT_CRITICAL();
    vTaskSuspendAll();
    (void) xTaskResumeAll();
    xReturn = put_item(xQueue, pvItemToQueue, xTicksToWait);
    traceRETURN_xQueueGenericSend(xReturn);
    return xReturn;
}

BaseType_t xQueueReceive(QueueHandle_t xQueue, void *pvBuffer, TickType_t xTicksToWait)
{
    BaseType_t xReturn;
    traceENTER_xQueueReceive(xQueue, pvBuffer, xTicksToWait);
    taskENTER_CRITICAL();
    taskEXIT_CRITICAL();
    xReturn = get_item(xQueue, pvBuffer, xTicksToWait);
    traceRETURN_xQueueReceive(xReturn);
    return xReturn;
}

BaseType_t xQueueReceiveFromISR(QueueHandle_t xQueue, void *pvBuffer, BaseType_t *pxHigherPriorityTaskWoken)
{
    BaseType_t xReturn;
    (void) pxHigherPriorityTaskWoken;
    traceENTER_xQueueReceiveFromISR(xQueue, pvBuffer, pxHigherPriorityTaskWoken);
    xReturn = get_item(xQueue, pvBuffer, 0u);
    traceRETURN_xQueueReceiveFromISR(xReturn);
    return xReturn;
}

BaseType_t xQueueSemaphoreTake(QueueHandle_t xQueue, TickType_t xTicksToWait)
{
    BaseType_t xReturn;
    traceENTER_xQueueSemaphoreTake(xQueue, xTicksToWait);
    taskENTER_CRITICAL();
    taskEXIT_CRITICAL();
    xReturn = get_item(xQueue, NULL, xTicksToWait);
    traceRETURN_xQueueSemaphoreTake(xReturn);
    return xReturn;
}

/* The task that holds the mutex alone changes these two. */
BaseType_t xQueueTakeMutexRecursive(QueueHandle_t xMutex, TickType_t xTicksToWait)
{
    BaseType_t xReturn = pdPASS;
    int is_mine;
    traceENTER_xQueueTakeMutexRecursive(xMutex, xTicksToWait);
    (void) pthread_mutex_lock(&kernel);
    is_mine = (xMutex->holder == this_task);
    (void) pthread_mutex_unlock(&kernel);
    if (!is_mine) {
        xReturn = xQueueSemaphoreTake(xMutex, xTicksToWait);
    }
    if (xReturn == pdPASS) {
        (void) pthread_mutex_lock(&kernel);
        xMutex->holder = this_task;
        xMutex->depth++;
        (void) pthread_mutex_unlock(&kernel);
    }
    traceRETURN_xQueueTakeMutexRecursive(xReturn);
    return xReturn;
}

BaseType_t xQueueGiveMutexRecursive(QueueHandle_t xMutex)
{
    BaseType_t xReturn = pdFALSE;
    int is_last = 0;
    traceENTER_xQueueGiveMutexRecursive(xMutex);
    (void) pthread_mutex_lock(&kernel);
    if (xMutex->holder == this_task) {
        xMutex->depth--;
        is_last = (xMutex->depth == 0u);
        if (is_last) {
            xMutex->holder = NULL;
        }
        xReturn = pdPASS;
    }
    (void) pthread_mutex_unlock(&kernel);
    if (is_last) {
        (void) xQueueGenericSend(xMutex, NULL, 0u, 0);
    }
    traceRETURN_xQueueGiveMutexRecursive(xReturn);
    return xReturn;
}

BaseType_t xQueueGiveFromISR(QueueHandle_t xQueue, BaseType_t *pxHigherPriorityTaskWoken)
{
    BaseType_t xReturn;
    (void) pxHigherPriorityTaskWoken;
    traceENTER_xQueueGiveFromISR(xQueue, pxHigherPriorityTaskWoken);
    xReturn = put_item(xQueue, NULL, 0u);
    traceRETURN_xQueueGiveFromISR(xReturn);
    return xReturn;
}

void vQueueDelete(QueueHandle_t xQueue)
{
    traceENTER_vQueueDelete(xQueue);
    traceRETURN_vQueueDelete();
}

/* ---- stream_buffer.c ---- */

StreamBufferHandle_t xStreamBufferGenericCreate(size_t xBufferSizeBytes, size_t xTriggerLevelBytes, BaseType_t xStreamBufferType,
                                                void *pxSend, void *pxReceive)
{
    StreamBufferHandle_t pvAllocatedMemory;
    (void) xTriggerLevelBytes;
    (void) pxSend;
    (void) pxReceive;
    traceENTER_xStreamBufferGenericCreate(xBufferSizeBytes, xTriggerLevelBytes, xStreamBufferType, pxSend, pxReceive);
    (void) pthread_mutex_lock(&kernel);
    pvAllocatedMemory = deleted_buffer;
    deleted_buffer = NULL;
    if (pvAllocatedMemory == NULL) {
        pvAllocatedMemory = calloc(1u, sizeof *pvAllocatedMemory);
    } else {
        free(pvAllocatedMemory->bytes);
    }
    if (pvAllocatedMemory != NULL) {
        pvAllocatedMemory->size = xBufferSizeBytes;
        pvAllocatedMemory->used = 0u;
        pvAllocatedMemory->head = 0u;
        pvAllocatedMemory->is_message = (xStreamBufferType == 1);
        pvAllocatedMemory->bytes = calloc(1u, xBufferSizeBytes);
    }
    (void) pthread_mutex_unlock(&kernel);
    traceRETURN_xStreamBufferGenericCreate(pvAllocatedMemory);
    return pvAllocatedMemory;
}

static void copy_in(StreamBufferHandle_t buffer, const void *data, size_t length)
{
    const uint8_t *bytes = data;
    size_t i;
    for (i = 0; i < length; i++) {
        buffer->bytes[(buffer->head + buffer->used) % buffer->size] = bytes[i];
        buffer->used++;
    }
}

static void copy_out(StreamBufferHandle_t buffer, void *data, size_t length)
{
    uint8_t *bytes = data;
    size_t i;
    for (i = 0; i < length; i++) {
        bytes[i] = buffer->bytes[buffer->head];
        buffer->head = (buffer->head + 1u) % buffer->size;
        buffer->used--;
    }
}

static size_t put_bytes(StreamBufferHandle_t buffer, const void *data, size_t length, TickType_t ticks)
{
    struct timespec end = after(ticks);
    uint32_t header = (uint32_t) length;
    size_t needed = buffer->is_message ? (length + sizeof header) : 1u;
    size_t moved = 0u;
    stumble();
    (void) pthread_mutex_lock(&kernel);
    while (((buffer->size - buffer->used) < needed) && wait_for_change(&end, ticks)) {
    }
    if ((buffer->size - buffer->used) >= needed) {
        if (buffer->is_message) {
            copy_in(buffer, &header, sizeof header);
            moved = length;
        } else {
            size_t room = buffer->size - buffer->used;
            moved = (length < room) ? length : room;
        }
        copy_in(buffer, data, moved);
        (void) pthread_cond_broadcast(&changed);
    }
    (void) pthread_mutex_unlock(&kernel);
    stumble();
    return moved;
}

size_t xStreamBufferSend(StreamBufferHandle_t xStreamBuffer, const void *pvTxData, size_t xDataLengthBytes, TickType_t xTicksToWait)
{
    size_t xReturn;
    traceENTER_xStreamBufferSend(xStreamBuffer, pvTxData, xDataLengthBytes, xTicksToWait);
    vTaskSuspendAll();
    (void) xTaskResumeAll();
    xReturn = put_bytes(xStreamBuffer, pvTxData, xDataLengthBytes, xTicksToWait);
    traceRETURN_xStreamBufferSend(xReturn);
    return xReturn;
}

size_t xStreamBufferSendFromISR(StreamBufferHandle_t xStreamBuffer, const void *pvTxData, size_t xDataLengthBytes,
                                BaseType_t *pxHigherPriorityTaskWoken)
{
    size_t xReturn;
    (void) pxHigherPriorityTaskWoken;
    traceENTER_xStreamBufferSendFromISR(xStreamBuffer, pvTxData, xDataLengthBytes, pxHigherPriorityTaskWoken);
    xReturn = put_bytes(xStreamBuffer, pvTxData, xDataLengthBytes, 0u);
    traceRETURN_xStreamBufferSendFromISR(xReturn);
    return xReturn;
}

size_t xStreamBufferReceive(StreamBufferHandle_t xStreamBuffer, void *pvRxData, size_t xBufferLengthBytes, TickType_t xTicksToWait)
{
    struct timespec end = after(xTicksToWait);
    uint32_t header = 0u;
    size_t xReceivedLength = 0u;
    traceENTER_xStreamBufferReceive(xStreamBuffer, pvRxData, xBufferLengthBytes, xTicksToWait);
    stumble();
    (void) pthread_mutex_lock(&kernel);
    while ((xStreamBuffer->used == 0u) && wait_for_change(&end, xTicksToWait)) {
    }
    if (xStreamBuffer->used != 0u) {
        if (xStreamBuffer->is_message) {
            copy_out(xStreamBuffer, &header, sizeof header);
            xReceivedLength = header;           /* no demo sends more than it receives */
        } else {
            xReceivedLength = (xStreamBuffer->used < xBufferLengthBytes) ? xStreamBuffer->used : xBufferLengthBytes;
        }
        copy_out(xStreamBuffer, pvRxData, xReceivedLength);
        (void) pthread_cond_broadcast(&changed);
    }
    (void) pthread_mutex_unlock(&kernel);
    stumble();
    traceRETURN_xStreamBufferReceive(xReceivedLength);
    return xReceivedLength;
}

void vStreamBufferDelete(StreamBufferHandle_t xStreamBuffer)
{
    traceENTER_vStreamBufferDelete(xStreamBuffer);
    (void) pthread_mutex_lock(&kernel);
    deleted_buffer = xStreamBuffer;
    (void) pthread_mutex_unlock(&kernel);
    traceRETURN_vStreamBufferDelete();
}
