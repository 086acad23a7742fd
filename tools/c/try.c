/* Makes the calls of exchange.h that standard input asks for, each with several rooms,
 * and writes what they gave.
 *
 *   try              requests of standard input
 *   try no-memory    the same, and each growth of memory is refused in turn
 *   try stack KB     the same, and each call is made on a thread with so many kilobytes of stack
 *   try over KB      the same, and before its call the thread takes as much as that,
 *                    which ends the program
 *
 * A request is a line `NAME BYTES..`, with the number of bytes of each text, and behind it the
 * texts. `whyN` asks why call N refuses its three texts, and behind them stand their names. The
 * reply is a line `STATUS COUNT`, and behind it the bytes of the answer. What is wrong is told on
 * standard error, and ends the program. */
#define _GNU_SOURCE
#include "exchange.h"
#include <alloca.h>
#include <pthread.h>
#include <stdio.h>
#include <stdlib.h>
#include <string.h>
#include <sys/mman.h>

/* The last is the most bytes that exchange.h gives a refusal. */
enum { TEXTS = 4, FILL = 0xa5, BEHIND = 32, PAGE = 4096, REFUSAL_ROOM = 100 };

struct text {
    uint8_t *bytes;
    size_t count;
};

/* How many more times memory is given before it is refused, or -1 where it never is; how many times
 * it was refused, and in how many calls. */
static long left = -1, refusals = 0, all = 0;

void *__real_malloc(size_t size);
void *__real_realloc(void *old, size_t size);
void *__wrap_malloc(size_t size);
void *__wrap_realloc(void *old, size_t size);

static int is_out(void)
{
    if (left == 0)
        refusals++;
    else if (left > 0)
        left--;
    return left == 0 && refusals > 0;
}

void *__wrap_malloc(size_t size)
{
    return is_out() ? NULL : __real_malloc(size);
}

void *__wrap_realloc(void *old, size_t size)
{
    return is_out() ? NULL : __real_realloc(old, size);
}

static void end(const char *name, const char *why)
{
    fprintf(stderr, "try: %s: %s\n", name, why);
    exit(EXIT_FAILURE);
}

static uint8_t call_here(const char *name, const struct text *t, uint8_t *out, size_t room,
                         size_t *count)
{
    if (strcmp(name, "plan") == 0)
        return exchange_plan(t[0].bytes, t[0].count, out, room, count);
    if (strcmp(name, "plan_steady") == 0)
        return exchange_plan_steady(t[0].bytes, t[0].count, out, room, count);
    if (strcmp(name, "check") == 0)
        return exchange_check(t[0].bytes, t[0].count, t[1].bytes, t[1].count, out, room, count);
    if (strcmp(name, "switch") == 0)
        return exchange_switch(t[0].bytes, t[0].count, t[1].bytes, t[1].count, out, room, count);
    if (strcmp(name, "switch_wired") == 0)
        return exchange_switch_wired(t[0].bytes, t[0].count, t[1].bytes, t[1].count, t[2].bytes,
                                     t[2].count, out, room, count);
    if (strcmp(name, "orders") == 0)
        return exchange_orders(t[0].bytes, t[0].count, t[1].bytes, t[1].count, out, room, count);
    if (strcmp(name, "draw") == 0)
        return exchange_draw(t[0].bytes, t[0].count, t[1].bytes, t[1].count, out, room, count);
    if (strcmp(name, "changes") == 0)
        return exchange_changes(t[0].bytes, t[0].count, t[1].bytes, t[1].count, out, room, count);
    if (strcmp(name, "apply") == 0)
        return exchange_apply(t[0].bytes, t[0].count, t[1].bytes, t[1].count, t[2].bytes,
                              t[2].count, out, room, count);
    if (strcmp(name, "direct") == 0)
        return exchange_direct(t[0].bytes, t[0].count, out, room, count);
    if (strncmp(name, "why", 3) == 0)
        return exchange_why((uint8_t)atoi(name + 3), t[0].bytes, t[0].count, t[1].bytes, t[1].count,
                            t[2].bytes, t[2].count, t[3].bytes, t[3].count, out, room, count);
    end(name, "no such call");
    return 0;
}

/* A call, and what it gave. */
struct made {
    const char *name;
    const struct text *texts;
    uint8_t *out;
    size_t room, *count;
    uint8_t status;
};

/* How many bytes of stack the thread of a call has, or 0 where this one makes them. Below it is a
 * page that nobody may touch. */
static size_t stack;
/* How many bytes of stack are taken before the call. */
static size_t over;

static void *make(void *given)
{
    struct made *it = given;
    if (over > 0)
        explicit_bzero(alloca(over), over);
    it->status = call_here(it->name, it->texts, it->out, it->room, it->count);
    return NULL;
}

static uint8_t call(const char *name, const struct text *texts, uint8_t *out, size_t room,
                    size_t *count)
{
    struct made it = {name, texts, out, room, count, 0};
    if (stack == 0) {
        make(&it);
        return it.status;
    }
    pthread_attr_t how;
    pthread_t thread;
    uint8_t *low =
        mmap(NULL, PAGE + stack, PROT_READ | PROT_WRITE, MAP_PRIVATE | MAP_ANONYMOUS, -1, 0);
    if (low == MAP_FAILED || mprotect(low, PAGE, PROT_NONE) || pthread_attr_init(&how) ||
        pthread_attr_setstack(&how, low + PAGE, stack) ||
        pthread_create(&thread, &how, make, &it) || pthread_join(thread, NULL) ||
        munmap(low, PAGE + stack))
        end(name, "there is no thread for it");
    return it.status;
}

static void are_filled(const char *name, const uint8_t *bytes, size_t count)
{
    for (size_t i = 0; i < count; i++)
        if (bytes[i] != FILL)
            end(name, "a byte behind the answer, or one that was to stay, has changed");
}

/* A block of just so many bytes, all of which are filled.
 * It has an address also where there are none. */
static uint8_t *filled(size_t count)
{
    uint8_t *bytes = malloc(count + (count == 0));
    if (bytes == NULL)
        end("malloc", "no memory");
    memset(bytes, FILL, count + (count == 0));
    return bytes;
}

/* One call with this room, and all that may be known of it. */
static uint8_t in_room(const char *name, const struct text *texts, size_t room, size_t wanted,
                       uint8_t *answer)
{
    uint8_t *out = filled(room);
    size_t count = 77;
    uint8_t status = call(name, texts, out, room, &count);
    if (count != wanted)
        end(name, "another number of bytes");
    if ((status == EXCHANGE_NO_ROOM) != (room < wanted) || status > EXCHANGE_NO_ROOM)
        end(name, "another status");
    if (status == EXCHANGE_NO_ROOM)
        are_filled(name, out, room);
    else {
        are_filled(name, out + wanted, room - wanted);
        memcpy(answer, out, wanted);
    }
    free(out);
    return status;
}

/* Refuses each growth of memory in turn, until the call has all. Each time it says so,
 * or its answer is the same. */
static void without_memory(const char *name, const struct text *texts, uint8_t wanted_status,
                           const uint8_t *answer, size_t wanted)
{
    int is_refused = 1;
    for (long n = 0; is_refused; n++) {
        uint8_t *out = filled(wanted + BEHIND);
        size_t count = 77;
        left = n;
        refusals = 0;
        uint8_t status = call(name, texts, out, wanted, &count);
        left = -1;
        is_refused = refusals > 0;
        all += is_refused;
        int is_same =
            status == wanted_status && count == wanted && memcmp(out, answer, wanted) == 0;
        if (!is_same && (!is_refused || status != EXCHANGE_NO_MEMORY || count != 0))
            end(name, "memory was refused, and the call doesn't say so, or it wasn't, and the call "
                      "says so");
        size_t kept = is_same ? wanted : 0;
        are_filled(name, out + kept, wanted + BEHIND - kept);
        free(out);
    }
}

int main(int words, char **word)
{
    char line[200], name[16];
    int refuses = words > 1 && strcmp(word[1], "no-memory") == 0;
    over = words > 2 && strcmp(word[1], "over") == 0 ? 1024 * (size_t)atol(word[2]) : 0;
    stack =
        words > 2 && (over > 0 || strcmp(word[1], "stack") == 0) ? 1024 * (size_t)atol(word[2]) : 0;
    while (fgets(line, sizeof line, stdin) != NULL) {
        struct text texts[TEXTS] = {{NULL, 0}};
        int taken, next, given = 0;
        if (sscanf(line, "%15s%n", name, &taken) != 1)
            end(line, "no request");
        for (; given < TEXTS && sscanf(line + taken, "%zu%n", &texts[given].count, &next) == 1;
             given++, taken += next) {}
        for (int t = 0; t < TEXTS; t++) {
            texts[t].bytes = filled(texts[t].count);
            if (fread(texts[t].bytes, 1, texts[t].count, stdin) != texts[t].count)
                end(name, "a text is cut off");
        }
        uint8_t none;
        size_t wanted = 77;
        uint8_t asked = call(name, texts, &none, 0, &wanted);
        if ((asked == EXCHANGE_NO_ROOM) != (wanted > 0))
            end(name, "no room, but nothing to write, or the other way round");
        uint8_t *answer = filled(wanted), *again = filled(wanted);
        if (wanted > 0)
            in_room(name, texts, wanted - 1, wanted, answer);
        uint8_t status = in_room(name, texts, wanted, wanted, answer);
        if (in_room(name, texts, wanted + BEHIND, wanted, again) != status ||
            memcmp(answer, again, wanted) != 0)
            end(name, "another answer");
        if (status == EXCHANGE_REFUSED &&
            (wanted > REFUSAL_ROOM || memchr(answer, '\n', wanted) != answer + wanted - 1))
            end(name, "a refusal is no line, or a longer one than exchange.h says");
        if (refuses)
            without_memory(name, texts, status, answer, wanted);
        printf("%d %zu\n", status, wanted);
        fwrite(answer, 1, wanted, stdout);
        fflush(stdout);
        free(answer);
        free(again);
        for (int t = 0; t < TEXTS; t++)
            free(texts[t].bytes);
    }
    if (refuses)
        fprintf(stderr, "try: %ld growths of memory refused\n", all);
    return EXIT_SUCCESS;
}
