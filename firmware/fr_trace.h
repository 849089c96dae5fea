/* fr_trace.h: records the begin and the end of each kernel call of FreeRTOS V11, for `fr_check follow`.
 * SPDX-License-Identifier: MIT OR Apache-2.0
 *
 * Include this file at the end of FreeRTOSConfig.h, and add fr_trace.c to the build. README.md says the rest.
 *
 * The kernel has a pair of hooks for each of its functions: traceENTER_.. at its begin, traceRETURN_.. at each of its
 * ends. This file defines those of the calls that fr_check knows, and of those that an application can't have. They
 * expand inside the kernel's own files, so they may look into a queue. They use their parameters and nothing else.
 */
#ifndef FR_TRACE_H
#define FR_TRACE_H

/* ---- Settings. To change one, define it in FreeRTOSConfig.h, above the line that includes this file. -------------- */

#ifndef FR_TRACE_RECORDS
#define FR_TRACE_RECORDS 1024u      /* places in the ring, a power of two: 16 bytes each on a 32-bit target */
#endif
#ifndef FR_TRACE_WRAP
#define FR_TRACE_WRAP 0             /* a full ring: 0 stops and keeps the start, 1 goes on and keeps the end */
#endif
#ifndef FR_TRACE_ACTORS
#define FR_TRACE_ACTORS 32u         /* tasks and interrupts, the kernel's own among them: at most 255 */
#endif
#ifndef FR_TRACE_OBJECTS
#define FR_TRACE_OBJECTS 64u        /* objects that have a name: at most 255 */
#endif
/* 1: taskENTER_CRITICAL is the kernel's vTaskEnterCritical, which has hooks. So it is on ports for several cores. */
#ifndef FR_TRACE_CRITICAL_HOOKS
#if defined(configNUMBER_OF_CORES)
#if configNUMBER_OF_CORES > 1
#define FR_TRACE_CRITICAL_HOOKS 1
#endif
#endif
#endif
#ifndef FR_TRACE_CRITICAL_HOOKS
#define FR_TRACE_CRITICAL_HOOKS 0
#endif
/* 0: vTaskSuspendAll and xTaskResumeAll are unseen, as pvPortMalloc and vPortFree call them, too. */
#ifndef FR_TRACE_SUSPENSION
#define FR_TRACE_SUSPENSION 1
#endif
/* 1: each file of the application that enters critical sections or yields includes fr_wrap.h. */
#ifndef FR_TRACE_WRAPPED
#define FR_TRACE_WRAPPED 0
#endif

/* Some ports include FreeRTOSConfig.h in assembler files, too. */
#if !defined(__ASSEMBLER__) && !defined(__IAR_SYSTEMS_ASM__)

#include <stddef.h>
#include <stdint.h>

#ifdef __cplusplus
extern "C" {
#endif

/* ---- What the firmware calls ------------------------------------------------------------------------------------- */

enum fr_kind { FR_QUEUE, FR_SEMAPHORE, FR_STREAM, FR_MESSAGE };        /* a mutex is an FR_SEMAPHORE */

/* Names: those of the application file. The text has to stay where it is. */
void fr_trace_task(const void *task, const char *name);     /* NULL: the calling task. Not needed where xTaskCreate */
                                                            /* was given this name */
void fr_trace_irq(unsigned long number, const char *name);
void fr_trace_name(const void *object, const char *name, enum fr_kind kind);
/* A queue of integers of 1, 2 or 4 bytes, whose items are recorded. Other queues: fr_trace_name with FR_QUEUE. */
void fr_trace_queue(const void *queue, const char *name, unsigned item_bytes, int is_signed);

/* Marks. fr_mark stands after a write of a shared variable, after each write of it by this task or interrupt.
 * fr_isr_begin and fr_isr_end are the first and the last thing that a handler does, on each way through it. */
#define fr_mark(variable, value) fr_trace_mark(FR_MARK, #variable, (int32_t) (value))
#define fr_isr_begin() fr_trace_mark(FR_BEGIN, NULL, 0)
#define fr_isr_end() fr_trace_mark(FR_END, NULL, 0)

/* For the timer service and the tick: what the actor of this name calls is recorded in callbacks alone. */
void fr_trace_quiet(const char *name);
void fr_callback_begin(void);
void fr_callback_end(void);

void fr_trace_stop(void);                                   /* for good, as before a reset or in an assertion */
void fr_trace_dump(void (*print_line)(const char *line));   /* stops, and prints the trace: a line without its end a call */

/* ---- What the hooks call ------------------------------------------------------------------------------------------ */

enum fr_call {
    FR_OTHER,                       /* not recorded: only so that the calls within it aren't, either */
    FR_SEND, FR_SEND_ISR, FR_RECEIVE, FR_RECEIVE_ISR,
    FR_TAKE, FR_TAKE_ISR, FR_TAKE_RECURSIVE, FR_GIVE, FR_GIVE_ISR, FR_GIVE_RECURSIVE,
    FR_BUFFER_SEND, FR_BUFFER_SEND_ISR, FR_BUFFER_RECEIVE, FR_BUFFER_RECEIVE_ISR, FR_BUFFER_RESET,
    FR_CREATE_QUEUE, FR_CREATE_MUTEX, FR_CREATE_COUNTING, FR_CREATE_BINARY, FR_CREATE_RECURSIVE,
    FR_CREATE_STREAM, FR_CREATE_MESSAGE, FR_CREATE_BATCHING, FR_CREATE_STATIC,
    FR_DELETE_QUEUE, FR_DELETE_SEMAPHORE, FR_DELETE_BUFFER,
    FR_DELAY, FR_DELAY_UNTIL, FR_TASK_DELETE, FR_SUSPEND_ALL, FR_RESUME_ALL, FR_YIELD,
    FR_ENTER_CRITICAL, FR_EXIT_CRITICAL, FR_ENTER_CRITICAL_ISR, FR_EXIT_CRITICAL_ISR,
    /* An application has no line for these, so the answer names them: */
    FR_TASK_DELETE_OTHER, FR_TASK_SUSPEND, FR_ABORT_DELAY, FR_PREEMPTION_DISABLE, FR_PEEK, FR_PEEK_ISR, FR_SEND_FRONT,
    FR_SEND_FRONT_ISR, FR_OVERWRITE, FR_OVERWRITE_ISR, FR_QUEUE_RESET, FR_BUFFER_RESET_ISR,
    /* Records that are no calls: */
    FR_MARK, FR_BEGIN, FR_END, FR_NAMED,
    FR_CALLS
};

void fr_trace_start(void);
void fr_trace_enter(enum fr_call call, const void *object, uint32_t number, uint32_t ticks);
void fr_trace_enter_send(const void *queue, const void *item, size_t bytes, uint32_t ticks, long position, int in_isr);
void fr_trace_enter_receive(enum fr_call call, const void *queue, void *buffer, size_t bytes, uint32_t ticks);
void fr_trace_enter_delete(const void *task);
void fr_trace_return(uintptr_t result);
void fr_trace_registry(const void *queue, const char *name);
void fr_trace_task_created(const void *task, const char *name);
void fr_trace_mark(enum fr_call mark, const char *variable, int32_t value);

#ifdef __cplusplus
}
#endif

#define FR_FOREVER 0xFFFFFFFFu
#define FR_TICKS(ticks) (((ticks) == portMAX_DELAY) ? FR_FOREVER : (uint32_t) (ticks))
#define FR_ITEM_BYTES(queue) (((queue) != NULL) ? (size_t) (queue)->uxItemSize : (size_t) 0u)
#define FR_CREATE_OF(type)                                                                             \
    (((type) == 1u) ? FR_CREATE_MUTEX : ((type) == 2u) ? FR_CREATE_COUNTING : ((type) == 3u) ? FR_CREATE_BINARY : \
     ((type) == 4u) ? FR_CREATE_RECURSIVE : FR_CREATE_QUEUE)

/* ---- The hooks of tasks.c ----------------------------------------------------------------------------------------- */

#define traceSTARTING_SCHEDULER(...) fr_trace_start()
#define traceTASK_CREATE(pxNewTCB) fr_trace_task_created((pxNewTCB), (pxNewTCB)->pcTaskName)

#define traceENTER_vTaskDelay(xTicksToDelay) fr_trace_enter(FR_DELAY, NULL, 0u, (uint32_t) (xTicksToDelay))
#define traceRETURN_vTaskDelay(...) fr_trace_return(0u)
#define traceENTER_xTaskDelayUntil(...) fr_trace_enter(FR_DELAY_UNTIL, NULL, 0u, 0u)
#define traceRETURN_xTaskDelayUntil(...) fr_trace_return(0u)
#define traceENTER_vTaskDelete(xTaskToDelete) fr_trace_enter_delete(xTaskToDelete)
#define traceRETURN_vTaskDelete(...) fr_trace_return(0u)
#define traceENTER_vTaskSuspend(...) fr_trace_enter(FR_TASK_SUSPEND, NULL, 0u, 0u)
#define traceRETURN_vTaskSuspend(...) fr_trace_return(0u)
#define traceENTER_xTaskAbortDelay(...) fr_trace_enter(FR_ABORT_DELAY, NULL, 0u, 0u)
#define traceRETURN_xTaskAbortDelay(...) fr_trace_return(0u)
#define traceENTER_vTaskPreemptionDisable(...) fr_trace_enter(FR_PREEMPTION_DISABLE, NULL, 0u, 0u)
#define traceRETURN_vTaskPreemptionDisable(...) fr_trace_return(0u)

#if FR_TRACE_SUSPENSION
#define traceENTER_vTaskSuspendAll(...) fr_trace_enter(FR_SUSPEND_ALL, NULL, 0u, 0u)
#define traceRETURN_vTaskSuspendAll(...) fr_trace_return(0u)
#define traceENTER_xTaskResumeAll(...) fr_trace_enter(FR_RESUME_ALL, NULL, 0u, 0u)
#define traceRETURN_xTaskResumeAll(...) fr_trace_return(0u)
#endif

#if FR_TRACE_CRITICAL_HOOKS
#define traceENTER_vTaskEnterCritical(...) fr_trace_enter(FR_ENTER_CRITICAL, NULL, 0u, 0u)
#define traceRETURN_vTaskEnterCritical(...) fr_trace_return(0u)
#define traceENTER_vTaskExitCritical(...) fr_trace_enter(FR_EXIT_CRITICAL, NULL, 0u, 0u)
#define traceRETURN_vTaskExitCritical(...) fr_trace_return(0u)
#define traceENTER_vTaskEnterCriticalFromISR(...) fr_trace_enter(FR_ENTER_CRITICAL_ISR, NULL, 0u, 0u)
#define traceRETURN_vTaskEnterCriticalFromISR(...) fr_trace_return(0u)
#define traceENTER_vTaskExitCriticalFromISR(...) fr_trace_enter(FR_EXIT_CRITICAL_ISR, NULL, 0u, 0u)
#define traceRETURN_vTaskExitCriticalFromISR(...) fr_trace_return(0u)
#endif

/* ---- The hooks of queue.c. Semaphores and mutexes are queues whose items have no bytes. --------------------------- */

#define traceENTER_xQueueGenericSend(xQueue, pvItemToQueue, xTicksToWait, xCopyPosition) \
    fr_trace_enter_send((xQueue), (pvItemToQueue), FR_ITEM_BYTES(xQueue), FR_TICKS(xTicksToWait), (long) (xCopyPosition), 0)
#define traceRETURN_xQueueGenericSend(xReturn) fr_trace_return((uintptr_t) (xReturn))
#define traceENTER_xQueueGenericSendFromISR(xQueue, pvItemToQueue, pxHigherPriorityTaskWoken, xCopyPosition) \
    fr_trace_enter_send((xQueue), (pvItemToQueue), FR_ITEM_BYTES(xQueue), 0u, (long) (xCopyPosition), 1)
#define traceRETURN_xQueueGenericSendFromISR(xReturn) fr_trace_return((uintptr_t) (xReturn))
#define traceENTER_xQueueGiveFromISR(xQueue, ...) fr_trace_enter(FR_GIVE_ISR, (xQueue), 0u, 0u)
#define traceRETURN_xQueueGiveFromISR(xReturn) fr_trace_return((uintptr_t) (xReturn))
#define traceENTER_xQueueReceive(xQueue, pvBuffer, xTicksToWait) \
    fr_trace_enter_receive(FR_RECEIVE, (xQueue), (pvBuffer), FR_ITEM_BYTES(xQueue), FR_TICKS(xTicksToWait))
#define traceRETURN_xQueueReceive(xReturn) fr_trace_return((uintptr_t) (xReturn))
#define traceENTER_xQueueReceiveFromISR(xQueue, pvBuffer, ...) \
    fr_trace_enter_receive(FR_RECEIVE_ISR, (xQueue), (pvBuffer), FR_ITEM_BYTES(xQueue), 0u)
#define traceRETURN_xQueueReceiveFromISR(xReturn) fr_trace_return((uintptr_t) (xReturn))
#define traceENTER_xQueueSemaphoreTake(xQueue, xTicksToWait) \
    fr_trace_enter(FR_TAKE, (xQueue), 0u, FR_TICKS(xTicksToWait))
#define traceRETURN_xQueueSemaphoreTake(xReturn) fr_trace_return((uintptr_t) (xReturn))
#define traceENTER_xQueueTakeMutexRecursive(xMutex, xTicksToWait) \
    fr_trace_enter(FR_TAKE_RECURSIVE, (xMutex), 0u, FR_TICKS(xTicksToWait))
#define traceRETURN_xQueueTakeMutexRecursive(xReturn) fr_trace_return((uintptr_t) (xReturn))
#define traceENTER_xQueueGiveMutexRecursive(xMutex) fr_trace_enter(FR_GIVE_RECURSIVE, (xMutex), 0u, 0u)
#define traceRETURN_xQueueGiveMutexRecursive(xReturn) fr_trace_return((uintptr_t) (xReturn))

#define traceENTER_xQueueGenericCreate(uxQueueLength, uxItemSize, ucQueueType) \
    fr_trace_enter(FR_CREATE_OF((unsigned) (ucQueueType)), NULL, 0u, 0u)
#define traceRETURN_xQueueGenericCreate(pxNewQueue) fr_trace_return((uintptr_t) (pxNewQueue))
#define traceENTER_xQueueCreateMutex(ucQueueType) fr_trace_enter(FR_CREATE_OF((unsigned) (ucQueueType)), NULL, 0u, 0u)
#define traceRETURN_xQueueCreateMutex(xNewQueue) fr_trace_return((uintptr_t) (xNewQueue))
#define traceENTER_xQueueCreateCountingSemaphore(...) fr_trace_enter(FR_CREATE_COUNTING, NULL, 0u, 0u)
#define traceRETURN_xQueueCreateCountingSemaphore(xHandle) fr_trace_return((uintptr_t) (xHandle))
#define traceENTER_xQueueGenericCreateStatic(...) fr_trace_enter(FR_CREATE_STATIC, NULL, 0u, 0u)
#define traceRETURN_xQueueGenericCreateStatic(pxNewQueue) fr_trace_return((uintptr_t) (pxNewQueue))
#define traceENTER_xQueueCreateMutexStatic(...) fr_trace_enter(FR_CREATE_STATIC, NULL, 0u, 0u)
#define traceRETURN_xQueueCreateMutexStatic(xNewQueue) fr_trace_return((uintptr_t) (xNewQueue))
#define traceENTER_xQueueCreateCountingSemaphoreStatic(...) fr_trace_enter(FR_CREATE_STATIC, NULL, 0u, 0u)
#define traceRETURN_xQueueCreateCountingSemaphoreStatic(xHandle) fr_trace_return((uintptr_t) (xHandle))
#define traceENTER_vQueueDelete(xQueue) \
    fr_trace_enter((FR_ITEM_BYTES(xQueue) == 0u) ? FR_DELETE_SEMAPHORE : FR_DELETE_QUEUE, (xQueue), 0u, 0u)
#define traceRETURN_vQueueDelete(...) fr_trace_return(0u)
#define traceENTER_vQueueAddToRegistry(xQueue, pcQueueName) fr_trace_registry((xQueue), (pcQueueName))

#define traceENTER_xQueuePeek(xQueue, pvBuffer, xTicksToWait) fr_trace_enter(FR_PEEK, (xQueue), 0u, FR_TICKS(xTicksToWait))
#define traceRETURN_xQueuePeek(xReturn) fr_trace_return((uintptr_t) (xReturn))
#define traceENTER_xQueuePeekFromISR(xQueue, ...) fr_trace_enter(FR_PEEK_ISR, (xQueue), 0u, 0u)
#define traceRETURN_xQueuePeekFromISR(xReturn) fr_trace_return((uintptr_t) (xReturn))
#define traceENTER_xQueueGenericReset(xQueue, ...) fr_trace_enter(FR_QUEUE_RESET, (xQueue), 0u, 0u)
#define traceRETURN_xQueueGenericReset(xReturn) fr_trace_return((uintptr_t) (xReturn))

/* ---- The hooks of stream_buffer.c. The calls of message buffers are macros for those of stream buffers. ----------- */

#define traceENTER_xStreamBufferSend(xStreamBuffer, pvTxData, xDataLengthBytes, xTicksToWait) \
    fr_trace_enter(FR_BUFFER_SEND, (xStreamBuffer), (uint32_t) (xDataLengthBytes), FR_TICKS(xTicksToWait))
#define traceRETURN_xStreamBufferSend(xReturn) fr_trace_return((uintptr_t) (xReturn))
#define traceENTER_xStreamBufferSendFromISR(xStreamBuffer, pvTxData, xDataLengthBytes, ...) \
    fr_trace_enter(FR_BUFFER_SEND_ISR, (xStreamBuffer), (uint32_t) (xDataLengthBytes), 0u)
#define traceRETURN_xStreamBufferSendFromISR(xReturn) fr_trace_return((uintptr_t) (xReturn))
#define traceENTER_xStreamBufferReceive(xStreamBuffer, pvRxData, xBufferLengthBytes, xTicksToWait) \
    fr_trace_enter(FR_BUFFER_RECEIVE, (xStreamBuffer), (uint32_t) (xBufferLengthBytes), FR_TICKS(xTicksToWait))
#define traceRETURN_xStreamBufferReceive(xReceivedLength) fr_trace_return((uintptr_t) (xReceivedLength))
#define traceENTER_xStreamBufferReceiveFromISR(xStreamBuffer, pvRxData, xBufferLengthBytes, ...) \
    fr_trace_enter(FR_BUFFER_RECEIVE_ISR, (xStreamBuffer), (uint32_t) (xBufferLengthBytes), 0u)
#define traceRETURN_xStreamBufferReceiveFromISR(xReceivedLength) fr_trace_return((uintptr_t) (xReceivedLength))
#define traceENTER_xStreamBufferReset(xStreamBuffer) fr_trace_enter(FR_BUFFER_RESET, (xStreamBuffer), 0u, 0u)
#define traceRETURN_xStreamBufferReset(xReturn) fr_trace_return((uintptr_t) (xReturn))
#define traceENTER_xStreamBufferResetFromISR(xStreamBuffer) fr_trace_enter(FR_BUFFER_RESET_ISR, (xStreamBuffer), 0u, 0u)
#define traceRETURN_xStreamBufferResetFromISR(xReturn) fr_trace_return((uintptr_t) (xReturn))

#define traceENTER_xStreamBufferGenericCreate(xBufferSizeBytes, xTriggerLevelBytes, xStreamBufferType, ...) \
    fr_trace_enter(((xStreamBufferType) == 0) ? FR_CREATE_STREAM : ((xStreamBufferType) == 1) ? FR_CREATE_MESSAGE :       \
                   FR_CREATE_BATCHING, NULL, 0u, 0u)
#define traceRETURN_xStreamBufferGenericCreate(pvAllocatedMemory) fr_trace_return((uintptr_t) (pvAllocatedMemory))
#define traceENTER_xStreamBufferGenericCreateStatic(...) fr_trace_enter(FR_CREATE_STATIC, NULL, 0u, 0u)
#define traceRETURN_xStreamBufferGenericCreateStatic(xReturn) fr_trace_return((uintptr_t) (xReturn))
#define traceENTER_vStreamBufferDelete(xStreamBuffer) fr_trace_enter(FR_DELETE_BUFFER, (xStreamBuffer), 0u, 0u)
#define traceRETURN_vStreamBufferDelete(...) fr_trace_return(0u)

/* ---- Calls that aren't recorded. Within them the kernel calls vTaskSuspendAll and vTaskEnterCritical. -------------- */

#define FR_OTHER_ENTER() fr_trace_enter(FR_OTHER, NULL, 0u, 0u)
#define FR_OTHER_RETURN() fr_trace_return(0u)
#define traceENTER_xTaskCreate(...) FR_OTHER_ENTER()
#define traceRETURN_xTaskCreate(...) FR_OTHER_RETURN()
#define traceENTER_xTaskCreateStatic(...) FR_OTHER_ENTER()
#define traceRETURN_xTaskCreateStatic(...) FR_OTHER_RETURN()
#define traceENTER_vTaskPrioritySet(...) FR_OTHER_ENTER()
#define traceRETURN_vTaskPrioritySet(...) FR_OTHER_RETURN()
#define traceENTER_uxTaskPriorityGet(...) FR_OTHER_ENTER()
#define traceRETURN_uxTaskPriorityGet(...) FR_OTHER_RETURN()
#define traceENTER_uxTaskPriorityGetFromISR(...) FR_OTHER_ENTER()
#define traceRETURN_uxTaskPriorityGetFromISR(...) FR_OTHER_RETURN()
#define traceENTER_vTaskResume(...) FR_OTHER_ENTER()
#define traceRETURN_vTaskResume(...) FR_OTHER_RETURN()
#define traceENTER_xTaskResumeFromISR(...) FR_OTHER_ENTER()
#define traceRETURN_xTaskResumeFromISR(...) FR_OTHER_RETURN()
#define traceENTER_eTaskGetState(...) FR_OTHER_ENTER()
#define traceRETURN_eTaskGetState(...) FR_OTHER_RETURN()
#define traceENTER_vTaskGetInfo(...) FR_OTHER_ENTER()
#define traceRETURN_vTaskGetInfo(...) FR_OTHER_RETURN()
#define traceENTER_uxTaskGetSystemState(...) FR_OTHER_ENTER()
#define traceRETURN_uxTaskGetSystemState(...) FR_OTHER_RETURN()
#define traceENTER_xTaskGetHandle(...) FR_OTHER_ENTER()
#define traceRETURN_xTaskGetHandle(...) FR_OTHER_RETURN()
#define traceENTER_vTaskSetTimeOutState(...) FR_OTHER_ENTER()
#define traceRETURN_vTaskSetTimeOutState(...) FR_OTHER_RETURN()
#define traceENTER_xTaskCheckForTimeOut(...) FR_OTHER_ENTER()
#define traceRETURN_xTaskCheckForTimeOut(...) FR_OTHER_RETURN()
#define traceENTER_vTaskPreemptionEnable(...) FR_OTHER_ENTER()
#define traceRETURN_vTaskPreemptionEnable(...) FR_OTHER_RETURN()
#define traceENTER_vTaskCoreAffinitySet(...) FR_OTHER_ENTER()
#define traceRETURN_vTaskCoreAffinitySet(...) FR_OTHER_RETURN()
#define traceENTER_vTaskCoreAffinityGet(...) FR_OTHER_ENTER()
#define traceRETURN_vTaskCoreAffinityGet(...) FR_OTHER_RETURN()
#define traceENTER_xTaskGenericNotify(...) FR_OTHER_ENTER()
#define traceRETURN_xTaskGenericNotify(...) FR_OTHER_RETURN()
#define traceENTER_xTaskGenericNotifyWait(...) FR_OTHER_ENTER()
#define traceRETURN_xTaskGenericNotifyWait(...) FR_OTHER_RETURN()
#define traceENTER_ulTaskGenericNotifyTake(...) FR_OTHER_ENTER()
#define traceRETURN_ulTaskGenericNotifyTake(...) FR_OTHER_RETURN()
#define traceENTER_xTaskGenericNotifyFromISR(...) FR_OTHER_ENTER()
#define traceRETURN_xTaskGenericNotifyFromISR(...) FR_OTHER_RETURN()
#define traceENTER_vTaskGenericNotifyGiveFromISR(...) FR_OTHER_ENTER()
#define traceRETURN_vTaskGenericNotifyGiveFromISR(...) FR_OTHER_RETURN()
#define traceENTER_xTaskGenericNotifyStateClear(...) FR_OTHER_ENTER()
#define traceRETURN_xTaskGenericNotifyStateClear(...) FR_OTHER_RETURN()
#define traceENTER_ulTaskGenericNotifyValueClear(...) FR_OTHER_ENTER()
#define traceRETURN_ulTaskGenericNotifyValueClear(...) FR_OTHER_RETURN()
#define traceENTER_uxQueueMessagesWaiting(...) FR_OTHER_ENTER()
#define traceRETURN_uxQueueMessagesWaiting(...) FR_OTHER_RETURN()
#define traceENTER_uxQueueSpacesAvailable(...) FR_OTHER_ENTER()
#define traceRETURN_uxQueueSpacesAvailable(...) FR_OTHER_RETURN()
#define traceENTER_xQueueGetMutexHolder(...) FR_OTHER_ENTER()
#define traceRETURN_xQueueGetMutexHolder(...) FR_OTHER_RETURN()
#define traceENTER_xEventGroupCreate(...) FR_OTHER_ENTER()
#define traceRETURN_xEventGroupCreate(...) FR_OTHER_RETURN()
#define traceENTER_xEventGroupSync(...) FR_OTHER_ENTER()
#define traceRETURN_xEventGroupSync(...) FR_OTHER_RETURN()
#define traceENTER_xEventGroupWaitBits(...) FR_OTHER_ENTER()
#define traceRETURN_xEventGroupWaitBits(...) FR_OTHER_RETURN()
#define traceENTER_xEventGroupClearBits(...) FR_OTHER_ENTER()
#define traceRETURN_xEventGroupClearBits(...) FR_OTHER_RETURN()
#define traceENTER_xEventGroupSetBits(...) FR_OTHER_ENTER()
#define traceRETURN_xEventGroupSetBits(...) FR_OTHER_RETURN()
#define traceENTER_vEventGroupDelete(...) FR_OTHER_ENTER()
#define traceRETURN_vEventGroupDelete(...) FR_OTHER_RETURN()
#define traceENTER_xEventGroupGetBitsFromISR(...) FR_OTHER_ENTER()
#define traceRETURN_xEventGroupGetBitsFromISR(...) FR_OTHER_RETURN()
#define traceENTER_xTimerCreate(...) FR_OTHER_ENTER()
#define traceRETURN_xTimerCreate(...) FR_OTHER_RETURN()
#define traceENTER_xTimerIsTimerActive(...) FR_OTHER_ENTER()
#define traceRETURN_xTimerIsTimerActive(...) FR_OTHER_RETURN()
#define traceENTER_vTimerSetReloadMode(...) FR_OTHER_ENTER()
#define traceRETURN_vTimerSetReloadMode(...) FR_OTHER_RETURN()
#define traceENTER_xTimerGetReloadMode(...) FR_OTHER_ENTER()
#define traceRETURN_xTimerGetReloadMode(...) FR_OTHER_RETURN()
#define traceENTER_pvTimerGetTimerID(...) FR_OTHER_ENTER()
#define traceRETURN_pvTimerGetTimerID(...) FR_OTHER_RETURN()
#define traceENTER_vTimerSetTimerID(...) FR_OTHER_ENTER()
#define traceRETURN_vTimerSetTimerID(...) FR_OTHER_RETURN()
#define traceENTER_xTimerGenericCommandFromTask(...) FR_OTHER_ENTER()
#define traceRETURN_xTimerGenericCommandFromTask(...) FR_OTHER_RETURN()
#define traceENTER_xTimerGenericCommandFromISR(...) FR_OTHER_ENTER()
#define traceRETURN_xTimerGenericCommandFromISR(...) FR_OTHER_RETURN()
#define traceENTER_xTimerPendFunctionCall(...) FR_OTHER_ENTER()
#define traceRETURN_xTimerPendFunctionCall(...) FR_OTHER_RETURN()
#define traceENTER_xTimerPendFunctionCallFromISR(...) FR_OTHER_ENTER()
#define traceRETURN_xTimerPendFunctionCallFromISR(...) FR_OTHER_RETURN()

#endif /* not in assembler files */
#endif
