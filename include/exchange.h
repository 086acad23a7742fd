/* The answers of the program `exchange`, for programs in C.
 *
 * Each call reads texts and writes one answer: the bytes that the program prints for the same
 * texts, or, of `exchange_changes` and `exchange_why`, a line of its own. A text is a pointer and a
 * number of bytes, and needs no zero at its end.
 *
 * What a call gives back, and what it leaves in `out` and `*count`:
 *
 *   EXCHANGE_DONE       the answer is at the beginning of `out`, and `*count` is its number of
 *                       bytes
 *   EXCHANGE_REFUSED    the same, and the answer is the line of a refusal, as
 *                       `refused batch line 2`, with its line feed: at most 100 bytes
 *   EXCHANGE_NO_ROOM    the answer has more than `room` bytes: `*count` says how many,
 *                       and `out` is as it was
 *   EXCHANGE_NO_MEMORY  malloc or realloc gave no memory: `*count` is 0, and `out` is as it was
 *
 * Bytes of `out` after the answer are as they were. What `out` and `*count` hold before a call has
 * no effect. A call with a `room` of 0 asks for the number alone; it costs as much as one that
 * writes. Tests show that the same texts are answered alike each time, with the room that the first
 * call asks for too. No contract says so of each call. So if a second call answers
 * EXCHANGE_NO_ROOM, give it the room that it asks for.
 *
 * README.md says what a batch, a schedule and a shape are, docs/GUIDE.md what moves are,
 * docs/SWITCHES.md what a wiring is, docs/ORDERS.md what orders are, and docs/REFUSALS.md what each
 * refusal means. They are installed in share/doc/exchange.
 *
 * Below these calls are a switch and the end of a link, each as calls over a state that is yours.
 * They take no memory.
 *
 * What the caller promises, and no call can test:
 *
 *   - each pointer is that of as many bytes as its number says, `out` that of `room` bytes, and any
 *     other that of what its type says, aligned as C asks. None is null, also where there are 0
 *     bytes;
 *   - what a call may write doesn't overlap anything else that it is given. Texts may overlap;
 *   - nothing writes what a call reads, and nothing reads or writes what it may write, while the
 *     call lasts;
 *   - malloc, realloc and free are those of one allocator, which aligns each block as C asks;
 *   - no call is made from a signal handler, or in a process that was forked while it had threads.
 *
 * Calls keep nothing, so threads may make them side by side. A call starts no thread, reads no
 * file, prints nothing, and always ends. All memory that it takes by malloc it has let go when it
 * ends.
 */
#ifndef EXCHANGE_H
#define EXCHANGE_H

#include <stddef.h>
#include <stdint.h>

#ifdef __cplusplus
extern "C" {
#endif

/* What `exchange --version` prints. Its first number is
 * in the shared library's name, libexchange.so.1. */
#define EXCHANGE_VERSION "1.0.0"

#define EXCHANGE_DONE 0
#define EXCHANGE_REFUSED 1
#define EXCHANGE_NO_ROOM 2
#define EXCHANGE_NO_MEMORY 3

/* What calls over a state give besides. */
#define EXCHANGE_REPLY 4
#define EXCHANGE_BOOTSTRAP 5
#define EXCHANGE_MISALIGNED 6
#define EXCHANGE_OUTSIDE 7
#define EXCHANGE_FAILED 8
#define EXCHANGE_LOOSE 32
#define EXCHANGE_NO_PORT 33
#define EXCHANGE_NO_STATE 34

/* The calls whose refusals `exchange_why` explains,
 * and what it gives where no call has the number. */
#define EXCHANGE_OF_PLAN 0
#define EXCHANGE_OF_CHECK 1
#define EXCHANGE_OF_SWITCH 2
#define EXCHANGE_OF_APPLY 3
#define EXCHANGE_OF_DRAW 4
#define EXCHANGE_OF_CHANGES 5
#define EXCHANGE_OF_DIRECT 6
#define EXCHANGE_OF_SWITCH_WIRED 7
#define EXCHANGE_OF_ORDERS 8
#define EXCHANGE_NO_CALL 35

/* ---- calls over texts ----
 *
 * Each returns EXCHANGE_DONE, EXCHANGE_REFUSED, EXCHANGE_NO_ROOM or EXCHANGE_NO_MEMORY, as said
 * above. `exchange_why` refuses nothing, and may return EXCHANGE_NO_CALL. */

/* `exchange plan`: a schedule of the batch with as few settings as possible, and its certificate.
 *
 * Takes time that grows with the number of transfers times the logarithm of the uses of the busiest
 * link. Where that number of uses is no power of two, some transfers are put in one by one, which
 * may take time that grows with their number times the uses. */
uint8_t exchange_plan(const uint8_t *batch, size_t batch_bytes, uint8_t *out, size_t room,
                      size_t *count);

/* `exchange plan --steady`: a schedule of the batch with as few settings as possible that changes
 * the switch seldom, and its certificate.
 *
 * It changes the switch at most once for each pair of links that share transfers, and once for each
 * link in use. Takes time that grows with the number of transfers. */
uint8_t exchange_plan_steady(const uint8_t *batch, size_t batch_bytes, uint8_t *out, size_t room,
                             size_t *count);

/* `exchange check`: whether the schedule is right, and its certificate shows that none is shorter.
 *
 * Takes time that grows with the lengths of the texts. */
uint8_t exchange_check(const uint8_t *batch, size_t batch_bytes, const uint8_t *schedule,
                       size_t schedule_bytes, uint8_t *out, size_t room, size_t *count);

/* `exchange switch`: the bytes that set a C004, or both where the batch names a module above 15,
 * for each setting of a schedule of the batch, with a certificate or without.
 *
 * With a `schedule_bytes` of 0 no schedule is given, and the bytes are those for the plan of
 * `exchange_plan`. Then `schedule` isn't null either: `batch` will do. So an empty text isn't
 * refused here, as the program refuses an empty file. Takes time that grows with the lengths of the
 * texts, and the time of a plan where it makes one. */
uint8_t exchange_switch(const uint8_t *batch, size_t batch_bytes, const uint8_t *schedule,
                        size_t schedule_bytes, uint8_t *out, size_t room, size_t *count);

/* `exchange switch --wiring`: the same for a board with one C004 that is wired otherwise. The text
 * of the wiring is looked at first. */
uint8_t exchange_switch_wired(const uint8_t *batch, size_t batch_bytes, const uint8_t *schedule,
                              size_t schedule_bytes, const uint8_t *wiring, size_t wiring_bytes,
                              uint8_t *out, size_t room, size_t *count);

/* `exchange orders`: what each module copies aside before the first setting, and what it sends and
 * receives over link 0 and link 3 in each setting of a schedule of the batch, with a certificate or
 * without.
 *
 * With a `schedule_bytes` of 0 no schedule is given, as for `exchange_switch`. A batch in which two
 * transfers write one block is refused. Takes time that grows with the lengths of the texts, and
 * the time of a plan where it makes one. */
uint8_t exchange_orders(const uint8_t *batch, size_t batch_bytes, const uint8_t *schedule,
                        size_t schedule_bytes, uint8_t *out, size_t room, size_t *count);

/* `exchange apply`: the image that a run of the batch leaves of an image,
 * on a rack of the shape `MxKxW`.
 *
 * An image has all words of the rack, by module, by block and by place, each as four bytes, the
 * least significant first. An answer that is done has as many bytes as the image; a refusal may
 * have more. Plans and runs nothing. Takes time that grows with the lengths of the text and of the
 * image. */
uint8_t exchange_apply(const uint8_t *shape, size_t shape_bytes, const uint8_t *batch,
                       size_t batch_bytes, const uint8_t *image, size_t image_bytes, uint8_t *out,
                       size_t room, size_t *count);

/* `exchange draw`: the picture of all settings of a schedule, as the text of an SVG file.
 *
 * Takes time that grows with the lengths of the texts and of the picture's. */
uint8_t exchange_draw(const uint8_t *batch, size_t batch_bytes, const uint8_t *schedule,
                      size_t schedule_bytes, uint8_t *out, size_t room, size_t *count);

/* How often a schedule of the batch changes the switch, and how often it is shown that a schedule
 * with as many settings has to: the line `changes C least L`. The program says it in the title of a
 * picture, as `changes C, at least L`.
 *
 * Where C is L, none with so few settings has fewer. L is as good as prices of the links show it
 * where the schedule has the fewest settings, and else as one link does. No certificate is needed.
 * Takes time that grows with the lengths of the texts, and for these prices at most about that
 * of 30 million instructions. */
uint8_t exchange_changes(const uint8_t *batch, size_t batch_bytes, const uint8_t *schedule,
                         size_t schedule_bytes, uint8_t *out, size_t room, size_t *count);

/* `exchange direct`: a batch that does the moves, by directions that need the fewest settings.
 *
 * Takes time that grows with the length of the text. */
uint8_t exchange_direct(const uint8_t *moves, size_t moves_bytes, uint8_t *out, size_t room,
                        size_t *count);

/* Why a text was refused: the line that `exchange` tells on standard error beside the refusal,
 * with its line feed.
 *
 * The texts are those of the call, in the order of its arguments; of those that it doesn't have,
 * give any, as of 0 bytes. `names` are what the line calls them, one a line, in the same order. A
 * shape has a line too, and so has a schedule that isn't given: else the wrong file is named. For
 * `exchange_apply` write `\nbatch.txt\nwords.img`, and for `exchange_switch_wired` without a
 * schedule `batch.txt\n\nboard.txt`. An empty or missing name is the text's kind: `batch`,
 * `schedule`, `image`, `moves`, `wiring`. `exchange_plan_steady` refuses what `exchange_plan` does.
 *
 * The answer is done, and has 0 bytes where the call refuses none of these texts. Where no call has
 * the number, the status is EXCHANGE_NO_CALL, `*count` is 0, and `out` is as it was. Takes the time
 * of the call. */
uint8_t exchange_why(uint8_t call, const uint8_t *first, size_t first_bytes, const uint8_t *second,
                     size_t second_bytes, const uint8_t *third, size_t third_bytes,
                     const uint8_t *names, size_t names_bytes, uint8_t *out, size_t room,
                     size_t *count);

/* ---- an INMOS C004 ----
 *
 * The state of a switch is plain bytes: copy them, compare them, keep them in a file. Each switch
 * has one state, and each state is that of one switch. Bytes that no switch has give
 * EXCHANGE_NO_STATE, and the call changes nothing. `exchange c004` answers as these calls do. Each
 * takes constant time. */
struct exchange_c004 {
    /* What each output answers an enquiry: 80 hex and the input that feeds it,
     * or 0 where none does. */
    uint8_t outputs[32];
    /* The bytes that have come of a command that isn't whole, zeros after them, and their number,
     * 0 to 2. */
    uint8_t begun[2];
    uint8_t begun_count;
    /* 1 from a command that connects (00, 01) to the next that settles (03) or resets (04),
     * and else 0. */
    uint8_t connecting;
};

/* A switch as after a reset, to which nothing has come: all bytes are 0. */
void exchange_c004_reset(struct exchange_c004 *state);

/* Takes the next byte of the configuration link, and carries out the command that it ends. Gives
 *
 *   EXCHANGE_DONE       no reply is due: `*reply` is as it was
 *   EXCHANGE_REPLY      the byte ends an enquiry: `*reply` is 80 hex and the input
 *                       that feeds the output, or 0
 *   EXCHANGE_REFUSED    the byte can't come there. The command that was begun is dropped, and the
 *                       switch stays as it was: the next byte begins a command. The data sheet
 *                       doesn't say what a C004 does then
 *   EXCHANGE_NO_STATE   no switch has this state
 */
uint8_t exchange_c004_take(struct exchange_c004 *state, uint8_t byte, uint8_t *reply);

/* The input, 0 to 31, that feeds an output; or EXCHANGE_LOOSE where none does, EXCHANGE_NO_PORT
 * where `output` is above 31, EXCHANGE_NO_STATE where no switch has this state. */
uint8_t exchange_c004_source(const struct exchange_c004 *state, uint8_t output);

/* 1 where each of the two links feeds the other, and the switch is ready: no command has connected
 * since the last that settled or reset. Else 0; or EXCHANGE_NO_PORT where a link is above 31,
 * EXCHANGE_NO_STATE where no switch has this state. */
uint8_t exchange_c004_joined(const struct exchange_c004 *state, uint8_t link, uint8_t other);

/* ---- the link's end of a T414 that waits to boot ----
 *
 * The state of an end is plain bytes too. Bytes that no end has give EXCHANGE_NO_STATE,
 * and nothing changes. */
struct exchange_boot {
    /* The bytes that have come of a message that isn't whole, and their number, 0 to 8.
     * Those after them have no effect. */
    uint8_t begun[8];
    uint8_t begun_count;
    /* 1 once the end has refused a byte, and else 0. */
    uint8_t failed;
};

/* An end to which nothing has come: all bytes are 0. */
void exchange_boot_reset(struct exchange_boot *end);

/* Takes the next byte of a link, over the memory of its module: the byte at address `base + i` is
 * `memory[i]`. A word is there where its address is a multiple of four and all its bytes are in the
 * memory, the least significant first. Addresses don't wrap: a byte whose address would be 2^32 or
 * more has none. Nothing is booted. Gives
 *
 *   EXCHANGE_DONE        no reply is due. At the last byte of a poke (00, address,
 *                        word) its word is written
 *   EXCHANGE_REPLY       at the last byte of a peek (01, address): the bytes
 *                        of the word are in `reply`
 *   EXCHANGE_BOOTSTRAP   a control byte above 01: `byte` would be the length of a bootstrap
 *   EXCHANGE_MISALIGNED  at the last byte of a message whose address is no multiple of four
 *   EXCHANGE_OUTSIDE     at the last byte of a message whose word isn't in the memory
 *   EXCHANGE_FAILED      the end has refused a byte before, and takes none until it is reset
 *   EXCHANGE_NO_STATE    no end has this state
 *
 * But for EXCHANGE_REPLY `reply` is as it was, and but for a poke that is whole,
 * so is the memory. Takes constant time. */
uint8_t exchange_boot_take(struct exchange_boot *end, uint8_t *memory, size_t memory_bytes,
                           uint32_t base, uint8_t byte, uint8_t reply[4]);

#ifdef __cplusplus
}
#endif

#endif
