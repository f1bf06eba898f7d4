/* The answer sheet, the reach sheet and the word sheet of a routing plan, for gateways in C and C++. Link libgateway.a, which
   `rt lib`, run in crates/gateway, writes to crates/gateway/out/:

       cc -std=c11 -O2 -o ask examples/ask.c crates/gateway/out/libgateway.a

   ask.c asks one plan and prints its verdict; threads.c asks many at once, and gateway.c tries buffers of all lengths, both for any sheet. */
#ifndef HJALTROPA_GATEWAY_H
#define HJALTROPA_GATEWAY_H

#include <stddef.h>
#include <stdint.h>

#ifdef __cplusplus
extern "C" {
#endif

/* Rounds that suffice for every plan: with this allowance no plan is refused 14. */
#define HJALTROPA_ROUNDS 17409

/* Bytes that suffice for every sheet, and for every reach sheet. */
#define HJALTROPA_SHEET 8128

/* Bytes that suffice for every word sheet. */
#define HJALTROPA_WORDS 114

/* The longest text in bytes that is not refused 1. Who reads a text keeps a byte more, and hands on what came: then a longer text is refused,
   and never cut to one that is a plan. */
#define HJALTROPA_TEXT 16384

/* Bytes of stack that suffice for a call. Measured, not proved: the deepest calls in examples/threads.c, on a tree of depth 33, took 179,415
   (hjaltropa_sheet), 188,583 (hjaltropa_reach) and 208,151 (hjaltropa_words) with the library optimised for x86-64, as the toolchain compiles
   it; the rest is margin. What the caller's own functions take comes on top. The main thread and most others have more than that; a thread that
   is given a small stack has to be given so much. */
#define HJALTROPA_STACK 278528

/* The length of the sheet of a text, within an allowance of rounds. Where the buffer is as long or longer, the sheet stands at its start
   and nothing past it is changed; where it is shorter, nothing of it is changed. Any text, allowance and length will do; the pointers are
   not null, also for a length of 0, and text and buffer don't overlap. Proved for the Rattle function behind it; that this line declares that
   function is not.

   It may be called from several threads at once, with a buffer for each: it keeps nothing from one call to the next, has no data of its own
   that changes, and calls nothing but memcpy and memset. */
size_t hjaltropa_sheet(const uint8_t *text, size_t text_length, uint16_t allowance, uint8_t *buffer, size_t buffer_length);

/* How to read the verdict off a sheet. Each line ends in a line feed. The last line is one of three phrases, and the line before it says more
   in hexadecimal digits:

       3001           flow clear     no level may send a handle on a channel where a lower level may receive it
       3000hhggccoo   flow breach    level hh may send handle oo on channel cc, where level gg, which is lower, may receive it
       3fnnllll       refused        there is no verdict: refusal nn at line llll, which is 0 where no line is at fault

   The digits of a refusal are hexadecimal like the others: 3f100002 is refusal 16 at line 2, and 3f0a0102 is refusal 10 at line 258.
   docs/PLAN.md says what each number means. A breach is of two levels from 00 to 06. The outside, 07, ranks with none of them: that an offer of
   the plan comes in is no breach, and that a level hands it down to a lower one is.

   So a plan is clear exactly if its sheet is in the buffer and ends in the first of them; take nothing else for a yes:

       uint8_t sheet[HJALTROPA_SHEET];
       size_t size = hjaltropa_sheet(text, length, HJALTROPA_ROUNDS, sheet, sizeof sheet);
       int clear = 11 <= size && size <= sizeof sheet && memcmp(sheet + size - 11, "flow clear\n", 11) == 0;
*/

/* The length of the reach sheet of a text: what each level may receive. All that is said of hjaltropa_sheet holds of this function too: the
   length is returned in any case, a buffer that is shorter is unchanged, and HJALTROPA_SHEET bytes always suffice.

   A line 23llhhcc, in hexadecimal digits, says that level ll may receive handle hh on channel cc, and on no smaller channel. There is one for
   each level and each handle that it may receive on any channel, by level, then by handle; the last level is the outermost, 07. Behind them
   stands the line `reach complete`. A text that hjaltropa_sheet refuses within the same allowance is refused here by the same two lines,
   3fnnllll and `refused`. */
size_t hjaltropa_reach(const uint8_t *text, size_t text_length, uint16_t allowance, uint8_t *buffer, size_t buffer_length);

/* The length of the word sheet of a text: its verdict in one line for people, with the plan's own labels. All that is said of hjaltropa_sheet
   holds of this function too: the length is returned in any case, a buffer that is shorter is unchanged, and HJALTROPA_WORDS bytes always
   suffice. The line, which ends in its line feed, is one of three:

       clear
       breach HIGH to LOW on CHANNEL: OBJECT
       refused

   It has the verdict of the sheet within the same allowance, and the breach is the one that the sheet names: HIGH may send OBJECT on CHANNEL,
   where LOW, which is lower, may receive it. Each of the four is the plan's label for it, byte for byte; of a label of more than 24 bytes, the
   longest beginning of whole characters that has no more than 24. What has no label is `level 1` or `channel 0`, with its number in decimal. The
   line is well-formed UTF-8, and no zero is put behind it.

   The line is for people, and a program reads the verdict off the sheet: a label may hold any words, those of the line among them, so that its
   parts can't be told from each other. A label has no character below 20 hex, and no 7f. All others stand on the line as they do in the plan, the
   controls from 80 to 9f hex and the marks that turn the direction of writing too: a caller whose screen obeys these takes them out. */
size_t hjaltropa_words(const uint8_t *text, size_t text_length, uint16_t allowance, uint8_t *buffer, size_t buffer_length);

#ifdef __cplusplus
}
#endif

#endif
