/* fr_wrap.h: records taskYIELD and the critical sections, where the kernel has no hooks for them.
 * SPDX-License-Identifier: MIT OR Apache-2.0
 *
 * Include it in each .c file of the application that uses these macros, after task.h, and define FR_TRACE_WRAPPED 1 in
 * FreeRTOSConfig.h. Never include it in the kernel's files. On a port whose critical sections have hooks it does no harm:
 * the inner call isn't recorded.
 */
#ifndef FR_WRAP_H
#define FR_WRAP_H

#include "fr_trace.h"

#if !FR_TRACE_WRAPPED
#error "define FR_TRACE_WRAPPED 1 in FreeRTOSConfig.h: or else the trace says that these calls aren't recorded"
#endif

/* In the functions below the macros still are those of the kernel. */
static inline void fr_wrap_yield(void)
{
    fr_trace_enter(FR_YIELD, NULL, 0u, 0u);
    taskYIELD();
    fr_trace_return(0u);
}

static inline void fr_wrap_enter_critical(void)
{
    fr_trace_enter(FR_ENTER_CRITICAL, NULL, 0u, 0u);
    taskENTER_CRITICAL();
    fr_trace_return(0u);
}

static inline void fr_wrap_exit_critical(void)
{
    fr_trace_enter(FR_EXIT_CRITICAL, NULL, 0u, 0u);
    taskEXIT_CRITICAL();
    fr_trace_return(0u);
}

static inline UBaseType_t fr_wrap_enter_critical_from_isr(void)
{
    UBaseType_t mask;
    fr_trace_enter(FR_ENTER_CRITICAL_ISR, NULL, 0u, 0u);
    mask = taskENTER_CRITICAL_FROM_ISR();
    fr_trace_return(0u);
    return mask;
}

static inline void fr_wrap_exit_critical_from_isr(UBaseType_t mask)
{
    fr_trace_enter(FR_EXIT_CRITICAL_ISR, NULL, 0u, 0u);
    taskEXIT_CRITICAL_FROM_ISR(mask);
    fr_trace_return(0u);
}

#undef taskYIELD
#define taskYIELD() fr_wrap_yield()
#undef taskENTER_CRITICAL
#define taskENTER_CRITICAL() fr_wrap_enter_critical()
#undef taskEXIT_CRITICAL
#define taskEXIT_CRITICAL() fr_wrap_exit_critical()
#undef taskENTER_CRITICAL_FROM_ISR
#define taskENTER_CRITICAL_FROM_ISR() fr_wrap_enter_critical_from_isr()
#undef taskEXIT_CRITICAL_FROM_ISR
#define taskEXIT_CRITICAL_FROM_ISR(mask) fr_wrap_exit_critical_from_isr(mask)

#endif
