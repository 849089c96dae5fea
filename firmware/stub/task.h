/* The stub's tasks.c, queue.c and stream_buffer.c, in one header. The kernel's has one for each.
 * SPDX-License-Identifier: MIT OR Apache-2.0
 */
#ifndef STUB_TASK_H
#define STUB_TASK_H

#include "FreeRTOS.h"

typedef struct tskTaskControlBlock *TaskHandle_t;
typedef struct QueueDefinition *QueueHandle_t;
typedef QueueHandle_t SemaphoreHandle_t;
typedef struct StreamBufferDef_t *StreamBufferHandle_t;
typedef StreamBufferHandle_t MessageBufferHandle_t;
typedef void (*TaskFunction_t)(void *);

/* ---- tasks.c: a task is a thread ---- */

BaseType_t xTaskCreate(TaskFunction_t code, const char *name, unsigned stack, void *argument, UBaseType_t priority, TaskHandle_t *made);
TaskHandle_t xTaskGetCurrentTaskHandle(void);
void vTaskStartScheduler(void);                 /* returns after stub_end_scheduler, or after 1.5 seconds */
void vTaskDelay(TickType_t ticks);              /* a tick has 100 us */
void vTaskDelete(TaskHandle_t task);            /* with NULL it never returns */
void vTaskSuspendAll(void);
BaseType_t xTaskResumeAll(void);
void vTaskEnterCritical(void);
void vTaskExitCritical(void);
UBaseType_t vTaskEnterCriticalFromISR(void);
void vTaskExitCriticalFromISR(UBaseType_t mask);

/* The port's: no hooks. */
void vPortEnterCritical(void);
void vPortExitCritical(void);
UBaseType_t uxPortMaskFromISR(void);
void vPortUnmaskFromISR(UBaseType_t mask);
void vPortYield(void);

#define taskYIELD() vPortYield()
#if configNUMBER_OF_CORES > 1
#define taskENTER_CRITICAL() vTaskEnterCritical()
#define taskEXIT_CRITICAL() vTaskExitCritical()
#define taskENTER_CRITICAL_FROM_ISR() vTaskEnterCriticalFromISR()
#define taskEXIT_CRITICAL_FROM_ISR(mask) vTaskExitCriticalFromISR(mask)
#else
#define taskENTER_CRITICAL() vPortEnterCritical()
#define taskEXIT_CRITICAL() vPortExitCritical()
#define taskENTER_CRITICAL_FROM_ISR() uxPortMaskFromISR()
#define taskEXIT_CRITICAL_FROM_ISR(mask) vPortUnmaskFromISR(mask)
#endif

/* ---- queue.c ---- */

QueueHandle_t xQueueGenericCreate(UBaseType_t length, UBaseType_t item_size, uint8_t type);
QueueHandle_t xQueueCreateMutex(uint8_t type);
BaseType_t xQueueGenericSend(QueueHandle_t xQueue, const void *pvItemToQueue, TickType_t xTicksToWait, BaseType_t xCopyPosition);
BaseType_t xQueueReceive(QueueHandle_t xQueue, void *pvBuffer, TickType_t xTicksToWait);
BaseType_t xQueueReceiveFromISR(QueueHandle_t xQueue, void *pvBuffer, BaseType_t *woken);
BaseType_t xQueueSemaphoreTake(QueueHandle_t xQueue, TickType_t xTicksToWait);
BaseType_t xQueueTakeMutexRecursive(QueueHandle_t xMutex, TickType_t xTicksToWait);
BaseType_t xQueueGiveMutexRecursive(QueueHandle_t xMutex);
void vQueueDelete(QueueHandle_t xQueue);
BaseType_t xQueueGiveFromISR(QueueHandle_t xQueue, BaseType_t *woken);

#define xQueueCreate(length, item_size) xQueueGenericCreate((length), (item_size), 0u)
#define xQueueSend(queue, item, ticks) xQueueGenericSend((queue), (item), (ticks), 0)
#define xQueueSendToFront(queue, item, ticks) xQueueGenericSend((queue), (item), (ticks), 1)
#define xSemaphoreCreateBinary() xQueueGenericCreate(1u, 0u, 3u)
#define xSemaphoreCreateMutex() xQueueCreateMutex(1u)
#define xSemaphoreCreateRecursiveMutex() xQueueCreateMutex(4u)
#define xSemaphoreTake(semaphore, ticks) xQueueSemaphoreTake((semaphore), (ticks))
#define xSemaphoreTakeFromISR(semaphore, woken) xQueueReceiveFromISR((semaphore), NULL, (woken))
#define xSemaphoreGive(semaphore) xQueueGenericSend((semaphore), NULL, 0u, 0)
#define vSemaphoreDelete(semaphore) vQueueDelete(semaphore)
#define xSemaphoreGiveFromISR(semaphore, woken) xQueueGiveFromISR((semaphore), (woken))
#define xSemaphoreTakeRecursive(mutex, ticks) xQueueTakeMutexRecursive((mutex), (ticks))
#define xSemaphoreGiveRecursive(mutex) xQueueGiveMutexRecursive(mutex)

/* ---- stream_buffer.c ---- */

StreamBufferHandle_t xStreamBufferGenericCreate(size_t size, size_t trigger, BaseType_t type, void *send_done, void *receive_done);
size_t xStreamBufferSend(StreamBufferHandle_t buffer, const void *data, size_t length, TickType_t ticks);
size_t xStreamBufferSendFromISR(StreamBufferHandle_t buffer, const void *data, size_t length, BaseType_t *woken);
size_t xStreamBufferReceive(StreamBufferHandle_t buffer, void *data, size_t length, TickType_t ticks);
void vStreamBufferDelete(StreamBufferHandle_t buffer);

#define xStreamBufferCreate(size, trigger) xStreamBufferGenericCreate((size), (trigger), 0, NULL, NULL)
#define xMessageBufferCreate(size) xStreamBufferGenericCreate((size), 0u, 1, NULL, NULL)
#define xMessageBufferSend xStreamBufferSend
#define xMessageBufferReceive xStreamBufferReceive
#define vMessageBufferDelete vStreamBufferDelete

/* ---- Of the stub alone ---- */

void stub_interrupt(unsigned number, void (*handler)(void), unsigned every_us);     /* a thread that runs the handler */
void stub_end_scheduler(void);
void stub_act_as(TaskHandle_t task, unsigned interrupt);                            /* the calling thread is this one now */
void stub_pause_us(unsigned us);

#endif
