/* fr_trace.c: the ring of records, the names, and the dump. See fr_trace.h and README.md.
 * SPDX-License-Identifier: MIT OR Apache-2.0
 *
 * How it works. A hook finds out which task or interrupt runs (an actor), and counts how many kernel functions it is
 * in. Only the outermost one is recorded, since the kernel calls itself. A record takes the next number, which orders
 * the records of all cores, claims the place in the ring that belongs to this number, fills it, and writes its stamp.
 * There is no lock and no critical section: the hooks are also inside vTaskEnterCritical, and in interrupts.
 *
 * Nothing here waits, allocates memory or calls the kernel, but for xTaskGetCurrentTaskHandle.
 */
#include <stdbool.h>
#include <string.h>

#include "FreeRTOS.h"
#include "task.h"
#include "fr_trace.h"

#if (FR_TRACE_RECORDS & (FR_TRACE_RECORDS - 1u)) != 0u
#error "FR_TRACE_RECORDS has to be a power of two"
#endif
#if (FR_TRACE_ACTORS > 255u) || (FR_TRACE_OBJECTS > 255u)
#error "FR_TRACE_ACTORS and FR_TRACE_OBJECTS are at most 255"
#endif

/* ---- The port: which interrupt runs, and words that several cores change ------------------------------------------ */

/* The number of the interrupt that runs on this core, and 0 in a task. */
#ifndef FR_TRACE_IRQ
#if defined(__ARM_ARCH_PROFILE) && (__ARM_ARCH_PROFILE == 'M')
static inline uint32_t fr_ipsr(void)
{
    uint32_t number;
    __asm volatile("mrs %0, ipsr" : "=r"(number));
    return number;
}
#define FR_TRACE_IRQ() fr_ipsr()
#else
#error "define FR_TRACE_IRQ(): the number of the interrupt that runs on this core, 0 in a task"
#endif
#endif

/* A Cortex-M0 or M0+ can't add in one step. With one core it is enough to keep its interrupts away. */
#if !defined(FR_TRACE_LOCK) && defined(__ARM_ARCH_6M__)
#if defined(configNUMBER_OF_CORES)
#if configNUMBER_OF_CORES > 1
#error "define FR_TRACE_LOCK() and FR_TRACE_UNLOCK(state) by a spin lock of the chip: README.md has those of the RP2040"
#endif
#endif
static inline uint32_t fr_mask_interrupts(void)
{
    uint32_t state;
    __asm volatile("mrs %0, primask\n\tcpsid i" : "=r"(state) : : "memory");
    return state;
}
static inline void fr_unmask_interrupts(uint32_t state)
{
    __asm volatile("msr primask, %0" : : "r"(state) : "memory");
}
#define FR_TRACE_LOCK() fr_mask_interrupts()
#define FR_TRACE_UNLOCK(state) fr_unmask_interrupts(state)
#endif

#ifdef FR_TRACE_LOCK

#ifndef FR_TRACE_BARRIER
#if defined(__arm__)
#define FR_TRACE_BARRIER() __asm volatile("dmb" : : : "memory")
#else
#error "define FR_TRACE_BARRIER(): no access to memory passes it"
#endif
#endif

typedef volatile uintptr_t fr_word;

static inline uintptr_t fr_load(fr_word *word)
{
    uintptr_t value = *word;
    FR_TRACE_BARRIER();
    return value;
}
static inline void fr_store(fr_word *word, uintptr_t value)
{
    FR_TRACE_BARRIER();
    *word = value;
}
static inline uintptr_t fr_add_one(fr_word *word)
{
    uint32_t state = FR_TRACE_LOCK();
    uintptr_t value = *word;
    *word = value + 1u;
    FR_TRACE_BARRIER();
    FR_TRACE_UNLOCK(state);
    return value;
}
static inline bool fr_exchange(fr_word *word, uintptr_t before, uintptr_t after)
{
    uint32_t state = FR_TRACE_LOCK();
    bool same = (*word == before);
    if (same) {
        *word = after;
    }
    FR_TRACE_BARRIER();
    FR_TRACE_UNLOCK(state);
    return same;
}

#else
#include <stdatomic.h>

typedef atomic_uintptr_t fr_word;

static inline uintptr_t fr_load(fr_word *word)
{
    return atomic_load_explicit(word, memory_order_acquire);
}
static inline void fr_store(fr_word *word, uintptr_t value)
{
    atomic_store_explicit(word, value, memory_order_release);
}
static inline uintptr_t fr_add_one(fr_word *word)
{
    return atomic_fetch_add_explicit(word, 1u, memory_order_seq_cst);
}
/* gives the word the value `after` if it has the value `before`; false where it has another one */
static inline bool fr_exchange(fr_word *word, uintptr_t before, uintptr_t after)
{
    return atomic_compare_exchange_strong_explicit(word, &before, after, memory_order_acquire, memory_order_relaxed);
}

#endif

/* ---- What is kept ------------------------------------------------------------------------------------------------ */

#define FR_NOBODY 255u              /* no index of an actor or an object: it has no place, or no name */
#define FR_RETURN 0x80u             /* added to the call of a record: this is its return */
#define FR_CLAIMED UINTPTR_MAX      /* a stamp: somebody is at this place */
#define FR_HINTS 64u                /* a power of two */
#define FR_LABEL 16u                /* bytes kept of the name that xTaskCreate was given */
#define FR_LINE 192u                /* a line of the trace has fewer characters */

struct fr_event {
    uint8_t call;
    uint8_t actor;
    uint8_t object;
    bool has_value;
    uintptr_t what;                 /* enter: the block time. return: the result. mark: the variable's name. naming: the handle */
    uint32_t value;                 /* the item, the length, or what a variable was given; of an unnamed object its handle */
};

struct fr_record {
    fr_word stamp;                  /* 0: never written. n + 1: this is record n, whole */
    struct fr_event event;
};

/* Keys, and where they were found last. An index stays that of one actor or object; its key may change. */
struct fr_table {
    fr_word used;
    uintptr_t most;
    fr_word *keys;
    fr_word hints[FR_HINTS];
};

struct fr_actor {
    fr_word name;                   /* a text: the one that it was given, or its label; 0: none */
    char label[FR_LABEL];           /* the name that xTaskCreate was given */
    fr_word gone;                   /* the task was deleted */
    /* What follows is used by the actor itself alone. */
    const void *buffer;             /* where the item will be that it receives */
    uint8_t bytes;                  /* of this item; 0: it isn't recorded */
    uint8_t call;                   /* that it is in; FR_OTHER: not recorded */
    uint8_t object;                 /* of this call */
    uint8_t depth;                  /* how many functions of the kernel it is in */
    uint8_t floor;                  /* the depth between two calls: 1 where they aren't to be recorded */
    bool is_kernel;                 /* the idle task, or the timer service */
};

struct fr_object {
    fr_word name;                   /* a text */
    fr_word kind;                   /* an fr_kind, and of a queue of integers: 16 times the bytes, 256 if they have a sign */
};

static struct fr_record fr_ring[FR_TRACE_RECORDS];
static fr_word fr_next;             /* the number of the next record */
static fr_word fr_is_on;
static fr_word fr_no_place;         /* an actor's calls weren't recorded, since FR_TRACE_ACTORS is too small */

static fr_word fr_actor_keys[FR_TRACE_ACTORS];      /* a task's handle, or an interrupt's number; 0: nobody now */
static struct fr_actor fr_actors[FR_TRACE_ACTORS];
static struct fr_table fr_actor_table = { .most = FR_TRACE_ACTORS, .keys = fr_actor_keys };

static fr_word fr_object_keys[FR_TRACE_OBJECTS];    /* a handle; 0: none now */
static struct fr_object fr_objects[FR_TRACE_OBJECTS];
static struct fr_table fr_object_table = { .most = FR_TRACE_OBJECTS, .keys = fr_object_keys };

/* How a record is written. %o is an object, %k its kind, Stream or Message, %e an item, %n a length, %w a block time,
 * %t a delay, %a an actor, %v a variable, %i what it was given. answer: what the call returns, '-' nothing, 'r' a result, 'i' a
 * result and an item, 'c' a create's handle; 'm' is no call. outer: the kernel never makes this call within another one that
 * is recorded. */
struct fr_form {
    const char *text;
    char answer;
    uint8_t outer;
};

static const struct fr_form fr_forms[FR_CALLS] = {
    [FR_SEND] = { "xQueueSend(%o, %e, %w)", 'r', 0 },
    [FR_SEND_ISR] = { "xQueueSendFromISR(%o, %e)", 'r', 0 },
    [FR_RECEIVE] = { "xQueueReceive(%o, ?, %w)", 'i', 1 },
    [FR_RECEIVE_ISR] = { "xQueueReceiveFromISR(%o, ?)", 'i', 1 },
    [FR_TAKE] = { "xSemaphoreTake(%o, %w)", 'r', 0 },
    [FR_TAKE_ISR] = { "xSemaphoreTakeFromISR(%o)", 'r', 1 },
    [FR_TAKE_RECURSIVE] = { "xSemaphoreTakeRecursive(%o, %w)", 'r', 1 },
    [FR_GIVE] = { "xSemaphoreGive(%o)", 'r', 0 },
    [FR_GIVE_ISR] = { "xSemaphoreGiveFromISR(%o)", 'r', 1 },
    [FR_GIVE_RECURSIVE] = { "xSemaphoreGiveRecursive(%o)", 'r', 1 },
    [FR_BUFFER_SEND] = { "x%kBufferSend(%o, %n, %w)", 'r', 1 },
    [FR_BUFFER_SEND_ISR] = { "x%kBufferSendFromISR(%o, %n)", 'r', 1 },
    [FR_BUFFER_RECEIVE] = { "x%kBufferReceive(%o, %n, %w)", 'r', 1 },
    [FR_BUFFER_RECEIVE_ISR] = { "x%kBufferReceiveFromISR(%o, %n)", 'r', 1 },
    [FR_BUFFER_RESET] = { "x%kBufferReset(%o)", 'r', 1 },
    [FR_CREATE_QUEUE] = { "xQueueCreate(%o)", 'c', 0 },
    [FR_CREATE_MUTEX] = { "xSemaphoreCreateMutex(%o)", 'c', 0 },
    [FR_CREATE_COUNTING] = { "xSemaphoreCreateCounting(%o)", 'c', 0 },
    [FR_CREATE_BINARY] = { "xSemaphoreCreateBinary(%o)", 'c', 0 },
    [FR_CREATE_RECURSIVE] = { "xSemaphoreCreateRecursiveMutex(%o)", 'c', 0 },
    [FR_CREATE_STREAM] = { "xStreamBufferCreate(%o)", 'c', 0 },
    [FR_CREATE_MESSAGE] = { "xMessageBufferCreate(%o)", 'c', 0 },
    [FR_CREATE_BATCHING] = { "xStreamBatchingBufferCreate(%o)", 'c', 0 },
    [FR_CREATE_STATIC] = { "createStatic(%o)", 'c', 0 },
    [FR_DELETE_QUEUE] = { "vQueueDelete(%o)", '-', 0 },
    [FR_DELETE_SEMAPHORE] = { "vSemaphoreDelete(%o)", '-', 0 },
    [FR_DELETE_BUFFER] = { "v%kBufferDelete(%o)", '-', 1 },
    [FR_DELAY] = { "vTaskDelay(%t)", '-', 1 },
    [FR_DELAY_UNTIL] = { "vTaskDelay(?)", '-', 1 },
    [FR_TASK_DELETE] = { "vTaskDelete(NULL)", '-', 0 },
    [FR_SUSPEND_ALL] = { "vTaskSuspendAll()", '-', 0 },
    [FR_RESUME_ALL] = { "xTaskResumeAll()", '-', 0 },
    [FR_YIELD] = { "taskYIELD()", '-', 0 },
    [FR_ENTER_CRITICAL] = { "taskENTER_CRITICAL()", '-', 0 },
    [FR_EXIT_CRITICAL] = { "taskEXIT_CRITICAL()", '-', 0 },
    [FR_ENTER_CRITICAL_ISR] = { "taskENTER_CRITICAL_FROM_ISR()", '-', 0 },
    [FR_EXIT_CRITICAL_ISR] = { "taskEXIT_CRITICAL_FROM_ISR()", '-', 0 },
    [FR_TASK_DELETE_OTHER] = { "vTaskDeleteOther(%a)", '-', 0 },
    [FR_TASK_SUSPEND] = { "vTaskSuspend()", '-', 0 },
    [FR_ABORT_DELAY] = { "xTaskAbortDelay()", '-', 0 },
    [FR_PREEMPTION_DISABLE] = { "vTaskPreemptionDisable()", '-', 0 },
    [FR_PEEK] = { "xQueuePeek(%o, ?, %w)", 'r', 0 },
    [FR_PEEK_ISR] = { "xQueuePeekFromISR(%o, ?)", 'r', 0 },
    [FR_SEND_FRONT] = { "xQueueSendToFront(%o, %e, %w)", 'r', 0 },
    [FR_SEND_FRONT_ISR] = { "xQueueSendToFrontFromISR(%o, %e)", 'r', 0 },
    [FR_OVERWRITE] = { "xQueueOverwrite(%o, %e)", 'r', 0 },
    [FR_OVERWRITE_ISR] = { "xQueueOverwriteFromISR(%o, %e)", 'r', 0 },
    [FR_QUEUE_RESET] = { "xQueueReset(%o)", 'r', 0 },
    [FR_BUFFER_RESET_ISR] = { "x%kBufferResetFromISR(%o)", 'r', 0 },
    [FR_MARK] = { "set %v %i", 'm', 0 },
    [FR_BEGIN] = { "begin", 'm', 0 },
    [FR_END] = { "end", 'm', 0 },
};

/* ---- Keys --------------------------------------------------------------------------------------------------------- */

static uintptr_t fr_used(struct fr_table *table)
{
    uintptr_t used = fr_load(&table->used);
    return (used < table->most) ? used : table->most;
}

/* The index of a key, or FR_NOBODY. */
static uintptr_t fr_find(struct fr_table *table, uintptr_t key)
{
    fr_word *hint = &table->hints[(key ^ (key >> 4) ^ (key >> 10)) & (FR_HINTS - 1u)];
    uintptr_t used = fr_used(table);
    uintptr_t at = fr_load(hint);

    if (key == 0u) {
        return FR_NOBODY;
    }
    if ((at < used) && (fr_load(&table->keys[at]) == key)) {
        return at;
    }
    for (at = 0u; at < used; at++) {
        if (fr_load(&table->keys[at]) == key) {
            fr_store(hint, at);
            return at;
        }
    }
    return FR_NOBODY;
}

/* The index of a new place, which has no key yet, or FR_NOBODY. */
static uintptr_t fr_new_place(struct fr_table *table)
{
    uintptr_t at = (fr_load(&table->used) < table->most) ? fr_add_one(&table->used) : FR_NOBODY;
    return (at < table->most) ? at : FR_NOBODY;
}

static void fr_forget(struct fr_table *table, uintptr_t key)
{
    uintptr_t at = fr_find(table, key);
    if (at != FR_NOBODY) {
        fr_store(&table->keys[at], 0u);
    }
}

/* From now on the key is that of this index, and no other's. */
static void fr_give_key(struct fr_table *table, uintptr_t at, uintptr_t key)
{
    if (fr_load(&table->keys[at]) != key) {
        fr_forget(table, key);
        fr_store(&table->keys[at], key);
    }
}

/* The name of an actor, or NULL. */
static const char *fr_actor_name(uintptr_t at)
{
    return (const char *) fr_load(&fr_actors[at].name);
}

/* It has another name than that which xTaskCreate was given. */
static bool fr_was_named(uintptr_t at)
{
    const char *name = fr_actor_name(at);
    return (name != NULL) && (name != fr_actors[at].label);
}

static const char *fr_object_name(uintptr_t at)
{
    return (const char *) fr_load(&fr_objects[at].name);
}

static bool fr_is_text(const char *name, const char *text)
{
    return (name != NULL) && (strcmp(name, text) == 0);
}

/* ---- Records ------------------------------------------------------------------------------------------------------ */

/* The place of the next record, and its stamp. NULL: this one isn't kept. */
static struct fr_record *fr_claim(uintptr_t *stamp)
{
    uintptr_t number;
#if FR_TRACE_WRAP
    struct fr_record *place;
    uintptr_t was;
    number = fr_add_one(&fr_next);
    place = &fr_ring[number & (FR_TRACE_RECORDS - 1u)];
    was = fr_load(&place->stamp);
    *stamp = number + 1u;
    /* Who was interrupted here may still be at this place, and who was overtaken by a whole lap comes too late. */
    if ((was == FR_CLAIMED) || ((was != 0u) && ((*stamp - was) > (UINTPTR_MAX / 2u)))) {
        return NULL;
    }
    return fr_exchange(&place->stamp, was, FR_CLAIMED) ? place : NULL;
#else
    if (fr_load(&fr_next) >= FR_TRACE_RECORDS) {
        return NULL;                /* full: the counter stands still, so that it never begins again */
    }
    number = fr_add_one(&fr_next);
    *stamp = number + 1u;
    return (number < FR_TRACE_RECORDS) ? &fr_ring[number] : NULL;       /* nobody else ever gets this place */
#endif
}

static void fr_put(unsigned call, uintptr_t actor, uintptr_t object, uintptr_t what, const uint32_t *value)
{
    uintptr_t stamp;
    struct fr_record *place = fr_claim(&stamp);
    if (place != NULL) {
        place->event.call = (uint8_t) call;
        place->event.actor = (uint8_t) actor;
        place->event.object = (uint8_t) object;
        place->event.has_value = (value != NULL);
        place->event.what = what;
        place->event.value = (value != NULL) ? *value : 0u;
        fr_store(&place->stamp, stamp);
    }
}

/* The index of the task or interrupt that runs, if the recorder is on. One that is new gets a place. */
static uintptr_t fr_here(void)
{
    uintptr_t key;
    uintptr_t at;
    if (fr_load(&fr_is_on) == 0u) {
        return FR_NOBODY;
    }
    key = (uintptr_t) FR_TRACE_IRQ();
    if (key == 0u) {
        key = (uintptr_t) xTaskGetCurrentTaskHandle();
    }
    at = fr_find(&fr_actor_table, key);
    if (at == FR_NOBODY) {
        at = fr_new_place(&fr_actor_table);
        if (at != FR_NOBODY) {
            fr_store(&fr_actor_keys[at], key);
        } else {
            fr_store(&fr_no_place, 1u);
        }
    }
    return at;
}

/* The begin of a call. The index of the actor if it makes this call itself; FR_NOBODY if the kernel makes it. */
static uintptr_t fr_begin_call(enum fr_call call)
{
    uintptr_t at = fr_here();
    struct fr_actor *me;
    if (at == FR_NOBODY) {
        return FR_NOBODY;
    }
    me = &fr_actors[at];
    if ((fr_forms[call].outer != 0u) && (me->depth > me->floor)) {
        me->depth = me->floor;      /* a way out of the call before has no hook; the trace shows that */
    }
    me->depth++;
    if (me->depth != 1u) {
        return FR_NOBODY;
    }
    me->bytes = 0u;
    me->call = (uint8_t) FR_OTHER;
    return (call != FR_OTHER) ? at : FR_NOBODY;
}

/* Records the begin of a call. A task of the kernel and an interrupt without a name count only where they use an object
 * that has one: the tick of a port for several cores would fill the ring. */
static void fr_put_enter(enum fr_call call, uintptr_t at, const void *object, uint32_t ticks, const uint32_t *value)
{
    struct fr_actor *me = &fr_actors[at];
    uint32_t handle = (uint32_t) (uintptr_t) object;
    me->object = (uint8_t) fr_find(&fr_object_table, (uintptr_t) object);
    if ((me->object == FR_NOBODY) && !fr_was_named(at) && (me->is_kernel || (fr_actor_name(at) == NULL))) {
        return;
    }
    me->call = (uint8_t) call;
    fr_put((unsigned) call, at, me->object, ticks, ((me->object == FR_NOBODY) && (object != NULL)) ? &handle : value);
}

void fr_trace_enter(enum fr_call call, const void *object, uint32_t number, uint32_t ticks)
{
    uintptr_t at = fr_begin_call(call);
    if (at != FR_NOBODY) {
        fr_put_enter(call, at, object, ticks, &number);
    }
}

void fr_trace_enter_delete(const void *task)
{
    uintptr_t at = fr_begin_call(FR_TASK_DELETE);
    uintptr_t other = (task != NULL) ? fr_find(&fr_actor_table, (uintptr_t) task) : at;
    if (at != FR_NOBODY) {
        fr_actors[at].call = (uint8_t) FR_TASK_DELETE;
        fr_put((other == at) ? (unsigned) FR_TASK_DELETE : (unsigned) FR_TASK_DELETE_OTHER, at, other, 0u, NULL);
        if (other != FR_NOBODY) {
            fr_store(&fr_actors[other].gone, 1u);
        }
    }
}

/* An integer of 1, 2 or 4 bytes. */
static uint32_t fr_item(const void *item, uint8_t bytes)
{
    uint8_t byte = 0u;
    uint16_t half = 0u;
    uint32_t word = 0u;
    (void) memcpy((bytes == 1u) ? (void *) &byte : (bytes == 2u) ? (void *) &half : (void *) &word, item, bytes);
    return (uint32_t) byte | (uint32_t) half | word;
}

static uint8_t fr_item_bytes(const void *item, size_t bytes)
{
    return ((item != NULL) && ((bytes == 1u) || (bytes == 2u) || (bytes == 4u))) ? (uint8_t) bytes : 0u;
}

void fr_trace_enter_send(const void *queue, const void *item, size_t bytes, uint32_t ticks, long position, int in_isr)
{
    static const uint8_t calls[2][3] = { { FR_SEND, FR_SEND_FRONT, FR_OVERWRITE },
                                         { FR_SEND_ISR, FR_SEND_FRONT_ISR, FR_OVERWRITE_ISR } };
    enum fr_call call = (enum fr_call) calls[(in_isr != 0) ? 1 : 0][((position >= 0) && (position <= 2)) ? position : 1];
    uint8_t known = fr_item_bytes(item, bytes);
    uint32_t value = (known != 0u) ? fr_item(item, known) : 0u;
    uintptr_t at;
    if ((item == NULL) && (in_isr == 0)) {
        call = FR_GIVE;             /* xSemaphoreGive is a send of no item */
    }
    at = fr_begin_call(call);
    if (at != FR_NOBODY) {
        fr_put_enter(call, at, queue, ticks, (known != 0u) ? &value : NULL);
    }
}

void fr_trace_enter_receive(enum fr_call call, const void *queue, void *buffer, size_t bytes, uint32_t ticks)
{
    enum fr_call made = (buffer != NULL) ? call : FR_TAKE_ISR;      /* xSemaphoreTakeFromISR is a receive of no item */
    uintptr_t at = fr_begin_call(made);
    if (at != FR_NOBODY) {
        fr_actors[at].buffer = buffer;
        fr_actors[at].bytes = fr_item_bytes(buffer, bytes);
        fr_put_enter(made, at, queue, ticks, NULL);
    }
}

void fr_trace_return(uintptr_t result)
{
    uintptr_t at = fr_here();
    struct fr_actor *me;
    uint32_t value = 0u;
    bool has_item;
    if ((at == FR_NOBODY) || (fr_actors[at].depth <= fr_actors[at].floor)) {
        return;
    }
    me = &fr_actors[at];
    me->depth--;
    if ((me->depth != 0u) || (me->call == (uint8_t) FR_OTHER)) {
        return;
    }
    if (fr_forms[me->call].answer == 'c') {
        fr_forget(&fr_object_table, result);        /* what was here before was deleted */
    }
    has_item = (fr_forms[me->call].answer == 'i') && (result == 1u) && (me->bytes != 0u);
    if (has_item) {
        value = fr_item(me->buffer, me->bytes);
    }
    fr_put((unsigned) me->call | FR_RETURN, at, me->object, result, has_item ? &value : NULL);
}

void fr_trace_mark(enum fr_call mark, const char *variable, int32_t value)
{
    uintptr_t at = fr_here();
    uint32_t written = (uint32_t) value;
    if (at != FR_NOBODY) {
        fr_put((unsigned) mark, at, FR_NOBODY, (uintptr_t) variable, &written);
    }
}

/* ---- Names -------------------------------------------------------------------------------------------------------- */

/* The actor `at` is now the task or interrupt that has this key. */
static void fr_begin_actor(uintptr_t at, uintptr_t key)
{
    fr_actors[at].depth = fr_actors[at].floor;
    fr_store(&fr_actors[at].gone, 0u);
    fr_give_key(&fr_actor_table, at, key);
}

/* The place of the actor that is given this name. One that had the name before is the same actor; if there is none, it is
 * `now` unless that has a name, or a new one. */
static uintptr_t fr_name_actor(uintptr_t now, const char *name)
{
    uintptr_t used = fr_used(&fr_actor_table);
    uintptr_t at = 0u;
    while ((at < used) && !(fr_was_named(at) && fr_is_text(fr_actor_name(at), name))) {
        at++;
    }
    if (at == used) {
        at = ((now != FR_NOBODY) && !fr_was_named(now)) ? now : fr_new_place(&fr_actor_table);
        if (at != FR_NOBODY) {
            fr_store(&fr_actors[at].name, (uintptr_t) name);
        }
    }
    return at;
}

static void fr_name_key(uintptr_t key, const char *name)
{
    uintptr_t now = fr_find(&fr_actor_table, key);
    uintptr_t at = fr_name_actor(now, name);
    if ((at != FR_NOBODY) && (at != now)) {
        fr_begin_actor(at, key);
    }
}

void fr_trace_task(const void *task, const char *name)
{
    fr_name_key((task != NULL) ? (uintptr_t) task : (uintptr_t) xTaskGetCurrentTaskHandle(), name);
}

void fr_trace_irq(unsigned long number, const char *name)
{
    fr_name_key((uintptr_t) number, name);
}

void fr_trace_quiet(const char *name)
{
    uintptr_t at = fr_name_actor(FR_NOBODY, name);
    if (at != FR_NOBODY) {
        fr_actors[at].floor = 1u;
        fr_actors[at].depth = 1u;
    }
}

static void fr_set_floor(uintptr_t at, uint8_t floor)
{
    if (at != FR_NOBODY) {
        fr_actors[at].floor = floor;
        fr_actors[at].depth = floor;
    }
}

void fr_callback_begin(void)
{
    fr_set_floor(fr_here(), 0u);
}

void fr_callback_end(void)
{
    fr_set_floor(fr_here(), 1u);
}

/* The hook of xTaskCreate, which is in a critical section. A task that is created again under its name is the same actor. */
void fr_trace_task_created(const void *task, const char *name)
{
    char label[FR_LABEL] = { 0 };
    uintptr_t used = fr_used(&fr_actor_table);
    uintptr_t at;
    unsigned i;
    for (i = 0u; (i < (FR_LABEL - 1u)) && (name[i] != '\0'); i++) {
        char c = name[i];
        bool is_plain = ((c >= 'a') && (c <= 'z')) || ((c >= 'A') && (c <= 'Z')) || ((c >= '0') && (c <= '9'));
        label[i] = is_plain ? c : '_';
    }
    fr_forget(&fr_actor_table, (uintptr_t) task);       /* a deleted task may have been at this address */
    for (at = 0u; at < used; at++) {
        bool is_free = (fr_load(&fr_actors[at].gone) != 0u) || (fr_load(&fr_actor_keys[at]) == 0u);
        if (is_free && fr_is_text(fr_actor_name(at), label)) {
            fr_begin_actor(at, (uintptr_t) task);
            return;
        }
    }
    at = fr_new_place(&fr_actor_table);
    if (at != FR_NOBODY) {
        (void) memcpy(fr_actors[at].label, label, sizeof label);
        fr_store(&fr_actors[at].name, (uintptr_t) fr_actors[at].label);
        fr_actors[at].is_kernel = (strncmp(label, "IDLE", 4u) == 0) || (strcmp(label, "Tmr_Svc") == 0);
        fr_begin_actor(at, (uintptr_t) task);
    }
}

/* An object that has the name of one before it is the same object, created again. */
static void fr_name_object(const void *object, const char *name, uintptr_t kind)
{
    uintptr_t used = fr_used(&fr_object_table);
    uintptr_t at = 0u;
    uintptr_t actor = fr_here();
    while ((at < used) && !fr_is_text(fr_object_name(at), name)) {
        at++;
    }
    if ((at == used) && (object != NULL)) {
        at = fr_new_place(&fr_object_table);
    }
    if ((at == FR_NOBODY) || (object == NULL)) {
        return;
    }
    if (fr_object_name(at) == NULL) {
        fr_store(&fr_objects[at].name, (uintptr_t) name);
    }
    if (kind != (uintptr_t) FR_QUEUE) {             /* which is 0, and fr_trace_queue may have said more */
        fr_store(&fr_objects[at].kind, kind);
    }
    fr_give_key(&fr_object_table, at, (uintptr_t) object);
    if (actor != FR_NOBODY) {
        fr_put((unsigned) FR_NAMED, actor, at, (uintptr_t) object, NULL);
    }
}

void fr_trace_name(const void *object, const char *name, enum fr_kind kind)
{
    fr_name_object(object, name, (uintptr_t) kind);
}

/* The hook of vQueueAddToRegistry. The kernel calls it for the queue of its timer service, which isn't recorded. */
void fr_trace_registry(const void *queue, const char *name)
{
    if (strcmp(name, "TmrQ") != 0) {
        fr_name_object(queue, name, (uintptr_t) FR_QUEUE);
    }
}

void fr_trace_queue(const void *queue, const char *name, unsigned item_bytes, int is_signed)
{
    fr_name_object(queue, name, (uintptr_t) FR_QUEUE + (16u * item_bytes) + ((is_signed != 0) ? 256u : 0u));
}

/* ---- The dump ----------------------------------------------------------------------------------------------------- */

struct fr_text {
    char line[FR_LINE];
    unsigned length;
};

static void fr_add_char(struct fr_text *text, char c)
{
    if (text->length < (FR_LINE - 1u)) {
        text->line[text->length] = c;
        text->length++;
        text->line[text->length] = '\0';
    }
}

static void fr_add(struct fr_text *text, const char *more)
{
    const char *c;
    for (c = more; *c != '\0'; c++) {
        fr_add_char(text, *c);
    }
}

static void fr_add_number(struct fr_text *text, uintptr_t number, unsigned base)
{
    char digits[24];
    uintptr_t left = number;
    unsigned n = 0u;
    do {
        digits[n] = "0123456789abcdef"[left % base];
        n++;
        left /= base;
    } while (left != 0u);
    while (n != 0u) {
        n--;
        fr_add_char(text, digits[n]);
    }
}

/* An integer of so many bytes. */
static void fr_add_integer(struct fr_text *text, uint32_t value, unsigned bytes, bool is_signed)
{
    uint32_t sign = (uint32_t) 1u << ((8u * bytes) - 1u);
    uint32_t size = value;
    if (is_signed && ((value & sign) != 0u)) {
        fr_add_char(text, '-');
        size = (0u - value) & (sign | (sign - 1u));
    }
    fr_add_number(text, size, 10u);
}

static void fr_add_item(struct fr_text *text, const struct fr_event *event)
{
    uintptr_t kind = (event->object != FR_NOBODY) ? fr_load(&fr_objects[event->object].kind) : 0u;
    unsigned bytes = (unsigned) (kind / 16u) % 16u;
    if (event->has_value && (bytes != 0u)) {
        fr_add_integer(text, event->value, bytes, kind >= 256u);
    } else {
        fr_add_char(text, '?');
    }
}

static void fr_add_actor(struct fr_text *text, uintptr_t at)
{
    uintptr_t key = (at != FR_NOBODY) ? fr_load(&fr_actor_keys[at]) : 0u;
    if ((at != FR_NOBODY) && (fr_actor_name(at) != NULL)) {
        fr_add(text, fr_actor_name(at));
    } else {
        fr_add(text, (key < 4096u) ? "irq" : "task");
        fr_add_number(text, key, (key < 4096u) ? 10u : 16u);
    }
}

/* A copy of the event of record `number`; false where it isn't there. */
static bool fr_read(uintptr_t number, struct fr_event *event)
{
    struct fr_record *place = &fr_ring[number & (FR_TRACE_RECORDS - 1u)];
    if (!fr_exchange(&place->stamp, number + 1u, FR_CLAIMED)) {
        return false;
    }
    *event = place->event;
    fr_store(&place->stamp, number + 1u);
    return true;
}

static void fr_add_unnamed(struct fr_text *text, uint32_t handle)
{
    fr_add(text, "unnamed_");
    fr_add_number(text, handle, 16u);
}

/* The object that the create at record `number` makes: its name was recorded after the return of the create. */
static void fr_add_created(struct fr_text *text, uintptr_t number, uintptr_t end, uint8_t actor)
{
    struct fr_event event;
    uintptr_t handle = 0u;
    uintptr_t at;
    for (at = number + 1u; at != end; at++) {
        bool is_there = fr_read(at, &event);
        bool is_return = is_there && ((event.call & FR_RETURN) != 0u);
        if ((handle == 0u) && is_return && (event.actor == actor)) {
            handle = event.what;
            if (handle == 0u) {
                break;              /* the create failed */
            }
        } else if ((handle != 0u) && is_there && (event.call == (uint8_t) FR_NAMED) && (event.what == handle)) {
            fr_add(text, fr_object_name(event.object));
            return;
        } else if ((handle != 0u) && is_return && (event.what == handle) && (fr_forms[event.call & 0x7Fu].answer == 'c')) {
            break;                  /* the next object at this address */
        } else {
            /* of others */
        }
    }
    if (handle != 0u) {
        fr_add_unnamed(text, (uint32_t) handle);
    } else {
        fr_add_char(text, '?');
    }
}

static void fr_add_object(struct fr_text *text, const struct fr_event *event, uintptr_t number, uintptr_t end)
{
    if (fr_forms[event->call].answer == 'c') {
        fr_add_created(text, number, end, event->actor);
    } else if (event->object != FR_NOBODY) {
        fr_add(text, fr_object_name(event->object));
    } else {
        fr_add_unnamed(text, event->value);
    }
}

static void fr_add_part(struct fr_text *text, char part, const struct fr_event *event, uintptr_t number, uintptr_t end)
{
    bool is_named = (event->object != FR_NOBODY);
    switch (part) {
    case 'o':
        fr_add_object(text, event, number, end);
        break;
    case 'k':
        fr_add(text, (is_named && (fr_load(&fr_objects[event->object].kind) == (uintptr_t) FR_MESSAGE)) ? "Message" : "Stream");
        break;
    case 'e':
        fr_add_item(text, event);
        break;
    case 'n':
        fr_add_number(text, event->value, 10u);
        break;
    case 'w':
        if (event->what == FR_FOREVER) {
            fr_add(text, "portMAX_DELAY");
        } else {
            fr_add_number(text, event->what, 10u);
        }
        break;
    case 't':
        /* An application has no delay of portMAX_DELAY. */
        if (event->what == FR_FOREVER) {
            fr_add_char(text, '?');
        } else {
            fr_add_number(text, event->what, 10u);
        }
        break;
    case 'a':
        fr_add_actor(text, event->object);
        break;
    case 'v':
        fr_add(text, (const char *) event->what);
        break;
    default:
        fr_add_integer(text, event->value, 4u, true);
        break;
    }
}

static void fr_add_return(struct fr_text *text, const struct fr_event *event)
{
    char answer = fr_forms[event->call & 0x7Fu].answer;
    fr_add(text, " return");
    if (answer != '-') {
        fr_add_char(text, ' ');
        fr_add_number(text, ((answer == 'c') && (event->what != 0u)) ? 1u : event->what, 10u);
    }
    if ((answer == 'i') && (event->what == 1u)) {
        fr_add_char(text, ' ');
        fr_add_item(text, event);
    }
}

static void fr_print_event(const struct fr_event *event, uintptr_t number, uintptr_t end, void (*print_line)(const char *line))
{
    struct fr_text text;
    const struct fr_form *form = &fr_forms[event->call & 0x7Fu];
    const char *c;
    text.length = 0u;
    fr_add_actor(&text, event->actor);
    if ((event->call & FR_RETURN) != 0u) {
        fr_add_return(&text, event);
    } else {
        fr_add(&text, (form->answer == 'm') ? " " : " enter ");
        for (c = form->text; *c != '\0'; c++) {
            if (*c == '%') {
                c++;
                fr_add_part(&text, *c, event, number, end);
            } else {
                fr_add_char(&text, *c);
            }
        }
    }
    print_line(text.line);
}

void fr_trace_start(void)
{
    fr_store(&fr_is_on, 1u);
}

void fr_trace_stop(void)
{
    fr_store(&fr_is_on, 0u);
}

void fr_trace_dump(void (*print_line)(const char *line))
{
    struct fr_event event;
    uintptr_t number = 0u;
    uintptr_t end;
    bool is_lost;

    fr_trace_stop();
    end = fr_load(&fr_next);
#if FR_TRACE_WRAP
    if (fr_load(&fr_ring[end & (FR_TRACE_RECORDS - 1u)].stamp) != 0u) {
        number = end - FR_TRACE_RECORDS;            /* the place of the next record was used before */
    }
#else
    if (end > FR_TRACE_RECORDS) {
        end = FR_TRACE_RECORDS;
    }
#endif
    print_line("fr_trace 1");
#if !FR_TRACE_SUSPENSION
    print_line("unseen vTaskSuspendAll xTaskResumeAll");
#endif
#if !FR_TRACE_WRAPPED
    print_line("unseen taskYIELD");
#if !FR_TRACE_CRITICAL_HOOKS
    print_line("unseen taskENTER_CRITICAL taskEXIT_CRITICAL taskENTER_CRITICAL_FROM_ISR taskEXIT_CRITICAL_FROM_ISR");
#endif
#endif
    is_lost = (number != 0u) || (fr_load(&fr_no_place) != 0u);
    for (; number != end; number++) {
        if (!fr_read(number, &event)) {
            is_lost = true;         /* printed before the next record that is there */
        } else if (event.call != (uint8_t) FR_NAMED) {
            if (is_lost) {
                print_line("lost");
            }
            is_lost = false;
            fr_print_event(&event, number, end, print_line);
        } else {
            /* A naming is no event. */
        }
    }
}
