/* How many bytes of stack one call takes: it runs in a thread of its own, on a stack that was filled with a pattern. */
#ifndef PAINTED_H
#define PAINTED_H

#include <pthread.h>
#include <stdio.h>
#include <stdlib.h>
#include "reader.h"

enum { STACK_SIZE = 2 * 1024 * 1024, STACK_WORDS = STACK_SIZE / 8, ROOM_FOR_RECORD = 8192 };
#define PAINT UINT64_C(0xa5c3a5c3a5c3a5c3)

struct call {
    reader *read;
    uint32_t notation;
    const uint8_t *label;
    size_t size, record_size;
};

static _Alignas(4096) uint64_t painted_stack[STACK_WORDS];
static size_t unpainted; /* words from here on may have changed */
static uintptr_t called_from;
static uint8_t painted_record[ROOM_FOR_RECORD];

static void *make_call(void *of) {
    const struct call *c = of;
    called_from = (uintptr_t)__builtin_frame_address(0);
    c->read(c->notation, c->label, c->size, painted_record, c->record_size);
    return NULL;
}

static void run_on_painted_stack(struct call *c) {
    pthread_attr_t attributes;
    pthread_t thread;
    for (size_t i = unpainted; i < STACK_WORDS; i++)
        painted_stack[i] = PAINT;
    if (pthread_attr_init(&attributes) != 0 || pthread_attr_setstack(&attributes, painted_stack, STACK_SIZE) != 0 ||
        pthread_create(&thread, &attributes, make_call, c) != 0 || pthread_join(thread, NULL) != 0) {
        printf("a thread with its own stack cannot be started\n");
        exit(2);
    }
    pthread_attr_destroy(&attributes);
}

/* Bytes from the caller's frame to the deepest one that changed. The caller's own few bytes are counted in, and so is what the thread's
   end takes where that is more; what is above the caller's frame is not counted. */
static size_t stack_use(struct call c) {
    make_call(&c); /* so that no function is bound while the call is measured */
    run_on_painted_stack(&c);
    size_t deepest = 0;
    while (deepest < STACK_WORDS && painted_stack[deepest] == PAINT)
        deepest++;
    unpainted = deepest;
    return called_from - (uintptr_t)&painted_stack[deepest];
}

#endif
