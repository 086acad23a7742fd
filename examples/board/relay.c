/* The relay of a board that sets its switch itself, by tables of the switch's bytes. Nobody has
 * compiled it by INMOS's compiler, or tried it on a transputer. tools/rack/run.py compiles it by
 * another one, over channels of its own. docs/BOARD.md says more, and what is lost this way.
 *
 * Before each byte of the cable goes the number of its way. On way 1, of the modules, the bytes go
 * on. On way 3 a byte asks what this relay is: 1 goes back, for one with tables. On way 0 come
 * numbers of two bytes: for -3 the sum of the tables goes back; for K, if it follows -3, setting K
 * and those after it are set and moved, and for each goes back what the modules give back once they
 * are done. In the end -1 goes back. Where a module gives another number back, this ends. */
#include <channel.h>
#include <process.h>
#include <stddef.h>

/* Your own are CABLEIN, CABLEOUT, CONFIGOUT, CHAININ and CHAINOUT: on which links these are,
 * as #define CABLEIN LINK0IN. */
#include "switch.h" /* SETTINGS, bytes, ends, SUM: by switch_to_c.py */

enum { SWITCH, MODULES, KIND = 3 };
enum { END = -1, TABLES = -3, BY_TABLES = 1 };

static void give_back(short number)
{
    unsigned char pairs[4] = {SWITCH, 0, SWITCH, 0};

    pairs[1] = number & 0xff;
    pairs[3] = (number >> 8) & 0xff;
    ChanOut(CABLEOUT, pairs, 4);
}

/* Sets setting k: its bytes come after those of the setting before it. */
static void set(int k)
{
    unsigned long at = k > 0 ? ends[k - 1] : 0;

    ChanOut(CONFIGOUT, (void *)(bytes + at), (int)(ends[k] - at));
}

/* Sets the switch, and moves from a setting on, until another number comes back. Before setting 0
 * two bytes end a command that was begun. */
static int move_from(short first)
{
    static unsigned char enough[2] = {3, 3};
    short k, back;

    ChanOut(CONFIGOUT, enough, 2);
    for (k = 0; k < SETTINGS; k++) {
        set(k);
        if (k < first)
            continue;
        ChanOut(CHAINOUT, &k, 2);
        ChanIn(CHAININ, &back, 2);
        give_back(back);
        if (back != k)
            return 0;
    }
    give_back(END);
    return 1;
}

/* Relays until a byte names another way, or another number comes back. */
void relay(void)
{
    static unsigned char kind[2] = {KIND, BY_TABLES};
    unsigned char pair[2], up[2] = {MODULES, 0}, low = 0;
    int is_high = 0, is_asked = 0;
    short number;

    for (;;)
        if (ProcAlt(CABLEIN, CHAININ, NULL) == 1) {
            ChanIn(CHAININ, &up[1], 1);
            ChanOut(CABLEOUT, up, 2);
        } else {
            ChanIn(CABLEIN, pair, 2);
            if (pair[0] == MODULES)
                ChanOut(CHAINOUT, &pair[1], 1);
            else if (pair[0] == KIND)
                ChanOut(CABLEOUT, kind, 2);
            else if (pair[0] != SWITCH)
                return;
            else if (is_high) {
                number = (short)(low | pair[1] << 8);
                if (number == TABLES)
                    give_back(SUM);
                else if (is_asked && number >= 0 && !move_from(number))
                    return;
                is_asked = number == TABLES;
            } else
                low = pair[1];
            is_high ^= pair[0] == SWITCH;
        }
}
