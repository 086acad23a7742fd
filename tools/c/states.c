/* Makes the calls of exchange.h that work over a state, as standard input asks,
 * and writes what they gave.
 *
 * All that a call may read or write lies at the very beginning or end of a page between two that
 * can't be touched, and all else of that page has to stay. A call may take no memory. Before each
 * byte the state is copied to another place, where it goes on. What is wrong is told on standard
 * error, and ends the program. Requests, each a line and then bytes, with a line as the reply to
 * each:
 *
 *   c004 COUNT                  a switch takes COUNT bytes: their statuses, the replies, the last
 *                               state, all sources, and what is joined
 *   boot BASE MEMORY COUNT      an end takes COUNT bytes, over MEMORY bytes that come before them:
 *                               statuses, replies, state, memory
 *   switch BYTE                 a state of 36 bytes takes a byte: its status, the reply, the state,
 *                               all sources, and what is joined
 *   end BASE MEMORY BYTE        a state of 10 bytes takes one over a memory: its status,
 *                               the reply, the state, the memory */
#define _GNU_SOURCE
#include "exchange.h"
#include <stdio.h>
#include <stdlib.h>
#include <string.h>
#include <sys/mman.h>

enum { PAGE = 4096, FILL = 0xa5, PORTS = 32, MOST = 1 << 16 };

static int is_calling = 0;

void *__real_malloc(size_t size);
void *__real_realloc(void *old, size_t size);
void *__wrap_malloc(size_t size);
void *__wrap_realloc(void *old, size_t size);

static void end(const char *why)
{
    is_calling = 0;
    fprintf(stderr, "states: %s\n", why);
    exit(EXIT_FAILURE);
}

void *__wrap_malloc(size_t size)
{
    if (is_calling)
        end("a call takes memory");
    return __real_malloc(size);
}

void *__wrap_realloc(void *old, size_t size)
{
    if (is_calling)
        end("a call takes memory");
    return __real_realloc(old, size);
}

/* A page between two that can't be touched. What it holds stands at its beginning or at its end. */
struct page {
    uint8_t *bytes, *at;
    size_t count;
};

static uint8_t fill[PAGE];
static struct page state, memory, reply;

static struct page new_page(void)
{
    uint8_t *all = mmap(NULL, 3 * PAGE, PROT_NONE, MAP_PRIVATE | MAP_ANONYMOUS, -1, 0);
    if (all == MAP_FAILED || mprotect(all + PAGE, PAGE, PROT_READ | PROT_WRITE) != 0)
        end("no page");
    struct page page = {all + PAGE, all + PAGE, 0};
    return page;
}

static void put(struct page *page, int at_end, const void *bytes, size_t count)
{
    memset(page->bytes, FILL, PAGE);
    page->count = count;
    page->at = at_end ? page->bytes + PAGE - count : page->bytes;
    memcpy(page->at, bytes, count);
}

static void has_kept(const struct page *page)
{
    size_t before = (size_t)(page->at - page->bytes), behind = PAGE - before - page->count;
    if (memcmp(page->bytes, fill, before) != 0 || memcmp(page->at + page->count, fill, behind) != 0)
        end("a byte that isn't the call's has changed");
}

static void move(struct page *page, int at_end)
{
    uint8_t kept[PAGE];
    memcpy(kept, page->at, page->count);
    put(page, at_end, kept, page->count);
}

/* One byte, from a state that has moved. */
static uint8_t take(int is_switch, uint32_t base, int at_end, uint8_t byte)
{
    uint8_t before[sizeof(struct exchange_c004)], status;
    move(&state, at_end);
    move(&memory, !at_end);
    put(&reply, at_end, fill, is_switch ? 1 : 4);
    memcpy(before, state.at, state.count);
    is_calling = 1;
    if (is_switch)
        status = exchange_c004_take((struct exchange_c004 *)state.at, byte, reply.at);
    else
        status = exchange_boot_take((struct exchange_boot *)state.at, memory.at, memory.count, base,
                                    byte, reply.at);
    is_calling = 0;
    has_kept(&state);
    has_kept(&memory);
    has_kept(&reply);
    if (status != EXCHANGE_REPLY && memcmp(reply.at, fill, reply.count) != 0)
        end("a reply has changed, and none is due");
    if (status == EXCHANGE_NO_STATE && memcmp(before, state.at, state.count) != 0)
        end("a state that nothing has was changed");
    return status;
}

static void write_hex(const uint8_t *bytes, size_t count)
{
    putchar(' ');
    for (size_t i = 0; i < count; i++)
        printf("%02x", bytes[i]);
}

/* All that is asked of a switch, also of ports that it hasn't. */
static void write_answers(void)
{
    const struct exchange_c004 *at = (const struct exchange_c004 *)state.at;
    uint8_t found[PORTS + 1], joined[PORTS + 1];
    is_calling = 1;
    for (int output = 0; output <= PORTS; output++)
        found[output] = exchange_c004_source(at, (uint8_t)output);
    is_calling = 0;
    write_hex(found, sizeof found);
    for (int link = 0; link <= PORTS; link++) {
        is_calling = 1;
        for (int other = 0; other <= PORTS; other++)
            joined[other] = exchange_c004_joined(at, (uint8_t)link, (uint8_t)other);
        is_calling = 0;
        write_hex(joined, sizeof joined);
    }
    has_kept(&state);
}

static void read_bytes(void *bytes, size_t count)
{
    if (fread(bytes, 1, count, stdin) != count)
        end("a request is cut off");
}

/* Bytes of a stream, from the state that there is: the statuses, the replies, and the state. */
static void write_stream(int is_switch, uint32_t base, const uint8_t *sent, size_t count)
{
    static uint8_t statuses[MOST], replies[4 * MOST];
    size_t replied = 0;
    for (size_t i = 0; i < count; i++) {
        statuses[i] = take(is_switch, base, (int)(i % 2), sent[i]);
        if (statuses[i] == EXCHANGE_REPLY) {
            memcpy(replies + replied, reply.at, reply.count);
            replied += reply.count;
        }
    }
    write_hex(statuses, count);
    write_hex(replies, replied);
    write_hex(state.at, state.count);
}

int main(void)
{
    static uint8_t sent[MOST], words[PAGE];
    char line[100], name[10];
    unsigned numbers[3];
    memset(fill, FILL, sizeof fill);
    state = new_page();
    memory = new_page();
    reply = new_page();
    while (fgets(line, sizeof line, stdin) != NULL) {
        int given = sscanf(line, "%9s %u %u %u", name, &numbers[0], &numbers[1], &numbers[2]);
        int is_switch = name[0] == 'c' || name[0] == 's',
            is_state = name[0] == 's' || name[0] == 'e';
        size_t many = is_switch ? 0 : numbers[1], count = is_switch ? numbers[0] : numbers[2];
        uint32_t base = is_switch ? 0 : numbers[0];
        if (given != (is_switch ? 2 : 4) || many > sizeof words || (!is_state && count > MOST))
            end("no request");
        put(&state, 0, fill,
            is_switch ? sizeof(struct exchange_c004) : sizeof(struct exchange_boot));
        if (is_state)
            read_bytes(state.at, state.count);
        else if (is_switch)
            exchange_c004_reset((struct exchange_c004 *)state.at);
        else
            exchange_boot_reset((struct exchange_boot *)state.at);
        has_kept(&state);
        read_bytes(words, many);
        put(&memory, 0, words, many);
        if (is_state) {
            sent[0] = (uint8_t)count;
            count = 1;
        } else
            read_bytes(sent, count);
        write_stream(is_switch, base, sent, count);
        if (is_switch)
            write_answers();
        else
            write_hex(memory.at, memory.count);
        putchar('\n');
        fflush(stdout);
    }
    return EXIT_SUCCESS;
}
