/* A stub of the kernel's interface on POSIX threads, just enough for the hooks of fr_trace.h. It is not FreeRTOS.
 * SPDX-License-Identifier: MIT OR Apache-2.0
 */
#ifndef STUB_FREERTOS_H
#define STUB_FREERTOS_H

#include <stddef.h>
#include <stdint.h>

typedef long BaseType_t;
typedef unsigned long UBaseType_t;
typedef uint32_t TickType_t;

#define pdFALSE ((BaseType_t) 0)
#define pdTRUE ((BaseType_t) 1)
#define pdPASS pdTRUE
#define portMAX_DELAY ((TickType_t) 0xFFFFFFFFu)

#include "FreeRTOSConfig.h"

/* As in the kernel's FreeRTOS.h: a hook that nobody defines is empty. The stub uses more of them than fr_trace.h has. */
#ifndef traceENTER_vTaskSuspendAll
#define traceENTER_vTaskSuspendAll()
#define traceRETURN_vTaskSuspendAll()
#define traceENTER_xTaskResumeAll()
#define traceRETURN_xTaskResumeAll(xAlreadyYielded)
#endif
#ifndef traceENTER_vTaskEnterCritical
#define traceENTER_vTaskEnterCritical()
#define traceRETURN_vTaskEnterCritical()
#define traceENTER_vTaskExitCritical()
#define traceRETURN_vTaskExitCritical()
#define traceENTER_vTaskEnterCriticalFromISR()
#define traceRETURN_vTaskEnterCriticalFromISR(uxSavedInterruptStatus)
#define traceENTER_vTaskExitCriticalFromISR(uxSavedInterruptStatus)
#define traceRETURN_vTaskExitCriticalFromISR()
#endif

#endif
