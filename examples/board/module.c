/* A module's program, with the channels and processes of INMOS's C. Nobody has compiled it by
 * INMOS's compiler, or tried it on a transputer. tools/rack/run.py compiles it by another one, over
 * channels of its own, and has it obey in a rack of processes. docs/BOARD.md says more.
 *
 * BLOCKS and BLOCK_BYTES are your own numbers: how many blocks the module has, and how many bytes
 * each. Links 1 and 2 make a chain. Over link 1 comes the number of each setting, once the switch
 * is set. Any other number has no orders. */
#include <channel.h>
#include <process.h>
#include <string.h>

enum act { IDLE, SEND, SEND_COPY, RECEIVE };
struct order { unsigned char act, block; };

#include "tables.h" /* COPIES, copies, SETTINGS, orders, SUM: by orders_to_c.py */

enum { END = -1, WAIT = -2, TABLES = -3, FILL = -4, READ = -5, TOLD = 3 };

unsigned char memory[BLOCKS][BLOCK_BYTES];
static unsigned char aside[BLOCKS][BLOCK_BYTES];

static void over(Process *self, Channel *in, Channel *out, const struct order *order)
{
    (void)self;
    switch (order->act) {
    case IDLE: break;
    case SEND: ChanOut(out, memory[order->block], BLOCK_BYTES); break;
    case SEND_COPY: ChanOut(out, aside[order->block], BLOCK_BYTES); break;
    case RECEIVE: ChanIn(in, memory[order->block], BLOCK_BYTES); break;
    }
}

/* Does the orders of a setting, those of both links side by side. */
static void move(const struct order *order)
{
    Process *zero = ProcAlloc(over, 0, 3, LINK0IN, LINK0OUT, &order[0]);
    Process *three = ProcAlloc(over, 0, 3, LINK3IN, LINK3OUT, &order[1]);

    ProcPar(zero, three, NULL);
    ProcAllocClean(zero);
    ProcAllocClean(three);
}

static void copy_aside(void)
{
    int i;

    for (i = 0; i < COPIES; i++)
        memcpy(aside[copies[i]], memory[copies[i]], BLOCK_BYTES);
}

/* Passes on so many numbers that come over a link. */
static void pass(Channel *in, Channel *out, int count)
{
    short number;

    for (; count > 0; count--) {
        ChanIn(in, &number, 2);
        ChanOut(out, &number, 2);
    }
}

/* Obeys until -1 comes. is_last: no module comes after this one. */
void obey(int is_last)
{
    short k = 0, back, told[TOLD] = {SUM, BLOCKS, BLOCK_BYTES / 4};
    int is_filled = 0, is_passed;

    copy_aside();
    while (k != END) {
        ChanIn(LINK1IN, &k, 2);
        if (k == WAIT)
            is_filled = 0;
        is_passed = !is_last && (k != FILL || is_filled);
        if (is_passed)
            ChanOut(LINK2OUT, &k, 2);
        if (k >= 0 && k < SETTINGS)
            move(orders[k]);
        if (k == FILL && is_passed)
            pass(LINK1IN, LINK2OUT, sizeof memory / 2);
        if (k == FILL && !is_passed) {
            ChanIn(LINK1IN, memory, sizeof memory);
            copy_aside();
            is_filled = 1;
        }
        if (k == TABLES || k == READ)
            ChanOut(LINK1OUT, told, sizeof told);
        if (k == READ)
            ChanOut(LINK1OUT, memory, sizeof memory);
        if (is_passed)
            /* until all after this one are done */
            for (ChanIn(LINK2IN, &back, 2); back != k; ChanIn(LINK2IN, &back, 2)) {
                ChanOut(LINK1OUT, &back, 2);
                pass(LINK2IN, LINK1OUT, TOLD - 1 + (k == READ ? (int)sizeof memory / 2 : 0));
            }
        ChanOut(LINK1OUT, &k, 2);
    }
}
