/* Has examples/board/module.c obey in a rack of processes: MODULE LINK0 LINK3 LINK1 [LINK2], as
 * examples/rack/module.py. With RELAY it is examples/board/relay.c that relays: RELAY CABLE CONFIG
 * CHAIN, as examples/board/relay.py. */
#include "channel.h"
#include "process.h"
#include <fcntl.h>
#include <poll.h>
#include <pthread.h>
#include <stdarg.h>
#include <stdio.h>
#include <stdlib.h>
#include <unistd.h>

/* Links 0 and 3 of a module acknowledge what comes; links 1 and 2 don't,
 * nor do those of the relay. */
struct channel { int in, out, acknowledges; };
static Channel ends[4] = {{-1, -1, 0}, {-1, -1, 0}, {-1, -1, 0}, {-1, -1, 0}};
Channel *const links[4] = {&ends[0], &ends[1], &ends[2], &ends[3]};

struct process { void (*function)(); void *words[3]; pthread_t thread; };

/* As LINK_ENDED of examples/board/chain.py. */
enum { LINK_ENDED = 3 };

static void must(int well)
{
    if (!well)
        exit(LINK_ENDED);
}

static void take(int from, char *at, int count)
{
    int taken;

    for (; count > 0; count -= taken, at += taken)
        must((taken = (int)read(from, at, count)) > 0);
}

static void give(int to, const char *at, int count)
{
    int given;

    for (; count > 0; count -= given, at += given)
        must((given = (int)write(to, at, count)) > 0);
}

void ChanIn(Channel *channel, void *at, int count)
{
    take(channel->in, at, count);
    if (channel->acknowledges)
        give(channel->out, "", 1);
}

void ChanOut(Channel *channel, void *at, int count)
{
    char acknowledge;

    give(channel->out, at, count);
    if (channel->acknowledges)
        take(channel->in, &acknowledge, 1);
}

/* Which of two channels something comes over, from 0. */
int ProcAlt(Channel *first, ...)
{
    struct pollfd ready[2];
    va_list others;

    va_start(others, first);
    ready[0].fd = first->in;
    ready[1].fd = va_arg(others, Channel *)->in;
    must(va_arg(others, Channel *) == NULL);
    va_end(others);
    ready[0].events = ready[1].events = POLLIN;
    must(poll(ready, 2, -1) > 0);
    return ready[0].revents == 0;
}

Process *ProcAlloc(void (*function)(), int stack, int count, ...)
{
    Process *process = malloc(sizeof *process);
    va_list words;
    int i;

    must(process != NULL && stack == 0 && count == 3);
    process->function = function;
    va_start(words, count);
    for (i = 0; i < count; i++)
        process->words[i] = va_arg(words, void *);
    va_end(words);
    return process;
}

static void *start(void *given)
{
    Process *process = given;
    process->function(process, process->words[0], process->words[1], process->words[2]);
    return NULL;
}

/* Runs two processes side by side, to their ends. */
void ProcPar(Process *first, ...)
{
    va_list others;
    Process *second;

    va_start(others, first);
    second = va_arg(others, Process *);
    must(va_arg(others, Process *) == NULL);
    va_end(others);
    must(pthread_create(&first->thread, NULL, start, first) == 0 &&
         pthread_create(&second->thread, NULL, start, second) == 0);
    must(pthread_join(first->thread, NULL) == 0 && pthread_join(second->thread, NULL) == 0);
}

void ProcAllocClean(Process *process)
{
    free(process);
}

#ifdef RELAY
void relay(void);

static int open_pipe(const char *name, const char *way, int how)
{
    char path[4096];

    must(sprintf(path, "%.4000s.%s", name, way) > 0);
    return open(path, how);
}

int main(int count, char **words)
{
    must(count == 4);
    ends[1].in = open_pipe(words[1], "in", O_RDONLY);
    ends[1].out = open_pipe(words[1], "out", O_WRONLY);
    ends[0].out = open_pipe(words[2], "in", O_WRONLY);
    ends[0].in = open_pipe(words[2], "out", O_RDONLY);
    ends[2].in = ends[2].out = atoi(words[3]);
    relay();
    return EXIT_FAILURE;
}
#else
void obey(int is_last);

int main(int count, char **words)
{
    static const int numbers[] = {0, 3, 1, 2};
    int i;

    for (i = 1; i < count; i++)
        ends[numbers[i - 1]].in = ends[numbers[i - 1]].out = atoi(words[i]);
    ends[0].acknowledges = ends[3].acknowledges = 1;
    obey(count == 4);
    return EXIT_SUCCESS;
}
#endif
