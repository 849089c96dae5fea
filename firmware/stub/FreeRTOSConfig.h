/* What a firmware's FreeRTOSConfig.h would have.
 * SPDX-License-Identifier: MIT OR Apache-2.0
 */
#ifndef STUB_FREERTOS_CONFIG_H
#define STUB_FREERTOS_CONFIG_H

#ifndef configNUMBER_OF_CORES
#define configNUMBER_OF_CORES 2
#endif
#define configMAX_TASK_NAME_LEN 16

#ifndef FR_TRACE_RECORDS
#define FR_TRACE_RECORDS 16384u
#endif
unsigned stub_interrupt_number(void);
#define FR_TRACE_IRQ() stub_interrupt_number()

/* As on a core without an atomic add. */
#ifdef STUB_LOCK
unsigned stub_lock(void);
void stub_unlock(unsigned state);
#define FR_TRACE_LOCK() stub_lock()
#define FR_TRACE_UNLOCK(state) stub_unlock(state)
#define FR_TRACE_BARRIER() __atomic_thread_fence(__ATOMIC_SEQ_CST)
#endif

#include "fr_trace.h"

#endif
