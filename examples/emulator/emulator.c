/* An emulator of three modules, whose memories are an array. The switch that joins their links is a
 * C004, which the library has. It plans a batch, hands the switch the bytes for each setting, has
 * the modules obey their orders, and compares the memories with those that `exchange apply` leaves.
 * Where a word names the program `exchange`, its `drive` sets the switch, through two named pipes
 * in a folder of their own. docs/EMULATORS.md says how to build it. */
#define _XOPEN_SOURCE 700

#include "exchange.h"
#include <errno.h>
#include <fcntl.h>
#include <poll.h>
#include <signal.h>
#include <stdio.h>
#include <stdlib.h>
#include <string.h>
#include <sys/stat.h>
#include <sys/wait.h>
#include <unistd.h>

/* Blocks of two words, as the shape says. */
enum { MODULES = 3, BLOCKS = 2, BYTES = 8, LINKS = 32 };
static const char shape[] = "3x2x2";
static const char batch[] = "batch 4\npush 0 0 1 0\npush 0 1 2 0\npull 0 0 1 1\npull 0 1 2 1\n";

static uint8_t memory[MODULES][BLOCKS][BYTES], aside[MODULES][BLOCKS][BYTES],
    before[MODULES][BLOCKS][BYTES], applied[MODULES][BLOCKS][BYTES];

/* Link 0 of module m is on link m of the switch, and link 3 on link 16 + m.
 * What comes out of each of the switch's links. */
static struct exchange_c004 chip;
static uint8_t wire[LINKS][BYTES];

static void end(const char *why)
{
    puts(why);
    exit(EXIT_FAILURE);
}

/* So that no folder is left. */
static void leave(int by)
{
    exit(128 + by);
}

/* A call that is given a batch and a schedule. */
typedef uint8_t answer(const uint8_t *, size_t, const uint8_t *, size_t, uint8_t *, size_t,
                       size_t *);

static uint8_t steady_plan(const uint8_t *text, size_t bytes, const uint8_t *none, size_t no_bytes,
                           uint8_t *out, size_t room, size_t *count)
{
    (void)none, (void)no_bytes;
    return exchange_plan_steady(text, bytes, out, room, count);
}

/* What a call answers, as a text with a zero behind it.
 * A call that finds too little room says how much it wants. */
static char *ask(answer *call, const char *plan)
{
    for (size_t room = 64, count;; room = count) {
        uint8_t *out = calloc(room + 1, 1);
        if (out == NULL)
            end("no memory");
        uint8_t status = call((const uint8_t *)batch, strlen(batch), (const uint8_t *)plan,
                              strlen(plan), out, room, &count);
        if (status == EXCHANGE_DONE)
            return (char *)out;
        if (status != EXCHANGE_NO_ROOM)
            end((char *)out);
        free(out);
    }
}

/* Hands the switch its bytes. None of them is an enquiry, so no reply is due. Says whether there
 * was more than 03, the end. */
static int set_switch(char *at)
{
    int changes = 0;
    while (*at == ' ') {
        uint8_t byte = (uint8_t)strtol(at, &at, 16), reply;
        if (exchange_c004_take(&chip, byte, &reply) != EXCHANGE_DONE)
            end("WRONG: the switch refuses a byte");
        changes |= byte != 3;
    }
    return changes;
}

static const char *next_line(const char *line)
{
    return strchr(line, '\n') + 1;
}

/* Sends a block into a link of the switch. It comes out wherever that feeds an output. */
static void send(int link, const uint8_t *block)
{
    int fed = 0;
    for (uint8_t output = 0; output < LINKS; output++)
        if (exchange_c004_source(&chip, output) == link) {
            memcpy(wire[output], block, BYTES);
            fed++;
        }
    if (fed == 0)
        end("WRONG: the link isn't joined");
}

/* Has each module copy the blocks that it is told to. */
static void copy(const char *orders)
{
    int m = 0, b;
    for (const char *line = orders; *line != 0; line = next_line(line))
        if (sscanf(line, "module %d", &m) != 1 && sscanf(line, "copy block %d", &b) == 1)
            memcpy(aside[m][b], memory[m][b], BYTES);
}

/* Has each module obey its orders of a setting: all of them send, and then all of them receive. So
 * both links move side by side. */
static void obey(const char *orders, int setting)
{
    for (int receives = 0; receives <= 1; receives++) {
        int m = 0, k, link, b;
        char verb[8], what[6];
        for (const char *line = orders; *line != 0; line = next_line(line)) {
            if (sscanf(line, "module %d", &m) == 1 ||
                sscanf(line, "setting %d link %d %7s %5s %d", &k, &link, verb, what, &b) != 5)
                continue;
            int port = link == 0 ? m : 16 + m;
            if (k != setting || receives != (strcmp(verb, "receive") == 0))
                continue;
            if (receives)
                memcpy(memory[m][b], wire[port], BYTES);
            else
                send(port, strcmp(what, "copy") == 0 ? aside[m][b] : memory[m][b]);
        }
    }
}

/* Hands the switch the bytes of each setting, in a line `setting S ..`,
 * and has the modules obey. */
static void go(const char *bytes, const char *orders)
{
    int settings = 0, changes = 0;

    for (const char *sent = bytes; *sent != 0; sent = next_line(sent)) {
        char *at;
        strtol(sent + 7, &at, 10);
        changes += set_switch(at);
        obey(orders, settings++);
    }
    printf("settings %d, changes of the switch %d\n", settings, changes);
}

static void must(int well)
{
    if (!well)
        end("WRONG: the system refuses a call");
}

static void keep(const char *name, const char *text)
{
    FILE *file = fopen(name, "w");
    must(file != NULL && fputs(text, file) >= 0 && fclose(file) == 0);
}

/* The folder of the pipes and files of `drive`. It is taken away when this program exits. */
static char folder[] = "/tmp/emulator-XXXXXX";

static void clean(void)
{
    static const char *const names[] = {"board.in", "board.out", "batch", "schedule"};

    for (size_t i = 0; i < sizeof names / sizeof *names; i++)
        unlink(names[i]);
    rmdir(folder);
}

/* Starts `drive`, whose lines come from lines, and
 * which waits for a line from go_on after each setting. */
static pid_t start_drive(const char *program, int *go_on, int *lines)
{
    int given[2], told[2];
    pid_t drive;

    must(mkfifo("board.in", 0600) == 0 && mkfifo("board.out", 0600) == 0 && pipe(given) == 0 &&
         pipe(told) == 0);
    must((drive = fork()) >= 0);
    if (drive == 0) {
        must(dup2(given[0], 0) == 0 && dup2(told[1], 1) == 1);
        must(close(given[0]) == 0 && close(given[1]) == 0 && close(told[0]) == 0 &&
             close(told[1]) == 0);
        execl(program, program, "drive", "batch", "board", "--schedule", "schedule", NULL);
        _exit(127);
    }
    must(close(given[0]) == 0 && close(told[1]) == 0);
    *go_on = given[1];
    *lines = told[0];
    return drive;
}

/* Takes what `drive` sends to the switch, and answers each enquiry at once:
 * whether there was anything. */
static int take(int in, int out)
{
    uint8_t sent[256], reply;
    ssize_t count = read(in, sent, sizeof sent);

    for (ssize_t i = 0; i < count; i++)
        if (exchange_c004_take(&chip, sent[i], &reply) == EXCHANGE_REPLY)
            must(write(out, &reply, 1) == 1);
    return count > 0;
}

/* At the other end of `drive`: looks at both of its pipes, since neither may wait for the other.
 * Gives the status with which it ends. */
static int be_driven(const char *program, const char *plan, const char *orders)
{
    char line[4096] = "";
    int go_on, lines, status, setting;

    char *path = realpath(program, NULL);
    if (path == NULL)
        end("there is no such program");
    must(mkdtemp(folder) != NULL && chdir(folder) == 0 && atexit(clean) == 0);
    signal(SIGINT, leave);
    signal(SIGTERM, leave);
    keep("batch", batch);
    keep("schedule", plan);
    pid_t drive = start_drive(path, &go_on, &lines);
    FILE *told = fdopen(lines, "r");
    /* `drive` may end while it is written to. It was started before,
     * so that it doesn't ignore the signal too. */
    signal(SIGPIPE, SIG_IGN);
    /* Opened to read and to write, neither waits for `drive`,
     * which opens none where it is refused. */
    int in = open("board.in", O_RDWR), out = open("board.out", O_RDWR);
    must(told != NULL && in >= 0 && out >= 0);
    struct pollfd ways[] = {{in, POLLIN, 0}, {lines, POLLIN, 0}};
    do {
        must(poll(ways, 2, -1) > 0);
        if (ways[0].revents != 0 && !take(in, out))
            ways[0].fd = -1;
        /* `drive` prints a line, and then waits for one:
         * there is never a second line in the buffer. */
        if (ways[1].revents != 0 && fgets(line, sizeof line, told) != NULL &&
            sscanf(line, "setting %d", &setting) == 1) {
            obey(orders, setting);
            must(write(go_on, "\n", 1) == 1 || errno == EPIPE);
        }
    } while (!(ways[1].revents & POLLHUP));
    /* One that waits for no line may have told more. */
    while (fgets(line, sizeof line, told) != NULL) {
    }
    must(waitpid(drive, &status, 0) == drive);
    fputs(line, stdout);
    free(path);
    must(fclose(told) == 0 && close(go_on) == 0 && close(in) == 0 && close(out) == 0);
    return WIFEXITED(status) ? WEXITSTATUS(status) : 128 + WTERMSIG(status);
}

int main(int words, char **word)
{
    size_t count;

    for (int m = 0; m < MODULES; m++)
        for (int b = 0; b < BLOCKS; b++)
            memset(memory[m][b], "ABCDEF"[BLOCKS * m + b], BYTES);
    memcpy(before, memory, sizeof memory);
    exchange_c004_reset(&chip);

    char *plan = ask(steady_plan, ""), *bytes = ask(exchange_switch, plan),
         *orders = ask(exchange_orders, plan);
    copy(orders);
    int ended = 0;
    if (words > 1)
        ended = be_driven(word[1], plan, orders);
    else
        go(bytes, orders);
    free(plan);
    free(bytes);
    free(orders);
    if (ended != 0) {
        printf("drive has ended with status %d, so nothing is compared\n", ended);
        return ended;
    }

    for (int m = 0; m < MODULES; m++)
        printf("module %d: %.8s %.8s\n", m, (char *)memory[m][0], (char *)memory[m][1]);
    uint8_t status =
        exchange_apply((const uint8_t *)shape, strlen(shape), (const uint8_t *)batch, strlen(batch),
                       before[0][0], sizeof before, applied[0][0], sizeof applied, &count);
    int same = status == EXCHANGE_DONE && count == sizeof memory &&
               memcmp(applied, memory, sizeof memory) == 0;
    puts(same ? "as exchange apply" : "WRONG");
    return same ? EXIT_SUCCESS : EXIT_FAILURE;
}
