/* How much stack each call of the library needs: what the functions in place of the calls use, which performance/stack
 * writes behind this. The file CALL_NOTES gets a line for each call, with the most bytes below it that it overwrote. */
#include <enip.h>
#include <stdint.h>
#include <stdio.h>
#include <stdlib.h>
#include <string.h>

enum { AREA = 1 << 20, PAINT = 0xa5, MARGIN = 256, CALLS = 128 };

static struct {
    const char *name;
    size_t most;
} found[CALLS];

/* Whether a call is being measured, the painted stack below it, from the bottom to the top, and the lowest byte that it
 * had overwritten when it called its owner. */
static int is_measuring;
static volatile unsigned char *bottom, *top, *before_owner;

/* The lowest byte that is no longer painted. */
__attribute__((noinline)) static volatile unsigned char *lowest(void) {
    volatile unsigned char *it = bottom;
    while (it < top && *it == PAINT)
        it++;
    return it;
}

/* Paints the stack below the caller. */
__attribute__((noinline)) static void paint(void) {
    unsigned char area[AREA];
    __asm__ volatile("" : : "r"(area) : "memory");
    memset(area, PAINT, AREA);
    __asm__ volatile("" : : "r"(area) : "memory");
    bottom = area;
    /* where the frame pointer and the return address were pushed */
    top = (unsigned char *)__builtin_frame_address(0) + 2 * sizeof(void *);
    before_owner = top;
}

static void write_notes(void) {
    FILE *notes = fopen(CALL_NOTES, "a");
    for (size_t i = 0; i < CALLS && found[i].name != NULL; i++)
        fprintf(notes, "%s %zu\n", found[i].name, found[i].most);
    fclose(notes);
}

/* Returns 0 for a call within a call: from a function of the caller. */
static int begin_call(void) {
    if (is_measuring)
        return 0;
    is_measuring = 1;
    return 1;
}

static void end_call(const char *name) {
    size_t i = 0;
    volatile unsigned char *after = lowest();
    size_t size = (size_t)(top - (after < before_owner ? after : before_owner));
    is_measuring = 0;
    if (found[0].name == NULL)
        atexit(write_notes);
    while (found[i].name != NULL && strcmp(found[i].name, name) != 0)
        i++;
    found[i].name = name;
    if (size > found[i].most)
        found[i].most = size;
}

/* ---- the owner, a function of the caller: what it takes is not the library's */

static int (*the_owner)(void *context, const enip_asked *asked, enip_reply *reply);
static void *the_context;

/* Paints the area again up to a little below this function. */
__attribute__((noinline)) static void paint_again(void) {
    volatile unsigned char *end = (unsigned char *)__builtin_frame_address(0) - MARGIN;
    for (volatile unsigned char *it = bottom; it < end; it++)
        *it = PAINT;
}

static int call_owner(void *context, const enip_asked *asked, enip_reply *reply) {
    (void)context;
    before_owner = lowest();
    int result = the_owner(the_context, asked, reply);
    paint_again();
    return result;
}

static int (*measured_owner(int (*owner)(void *, const enip_asked *, enip_reply *), void *context))(
    void *, const enip_asked *, enip_reply *) {
    the_owner = owner;
    the_context = context;
    return owner == NULL ? NULL : call_owner;
}
