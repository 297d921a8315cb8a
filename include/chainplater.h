/*
 * Chainplater: the K1/K2 coder, the controller for linear 1:n multiplex section protection (ITU-T G.841), the judge
 * of captured lines, the causes that explain them, the list of their switches, the reader and writer of capture books,
 * and the printed table of a book. The code behind these functions is proved; see README.md for what the proofs say and
 * what they rest on.
 *
 * Every function takes every value of its arguments and ends. All but chainplater_k1, which has nothing to refuse and
 * returns nothing, and chainplater_table, which puts a refusal into words, return 0 or the number of a refusal:
 *
 *    1  n is not 1 to 14                     20  a book of more than 65,536 bytes
 *    2  the mask has a bit at n or above     21  a book of fewer than 2 bytes
 *    3  the record is not acceptable         22  byte 0 of the book is not 1
 *    4  the conditions are not n + 1         23  more than 64 captures
 *    5  a condition is above 2               24  the contents are cut short
 *    6  the command is above 4               25  a spare byte, or the options, above 1
 *    7  the channel does not fit the command 26  a body is not where the one before it ends
 *    8  the capture is not whole steps       27  a body ends past the book
 *    9  the capture has over 16,384 steps    28  bytes are left over
 *   10  no pair codes that record            29  the output has too little room
 *   11  a table has fewer words than steps   30  the bodies are not as long as the contents say
 *   12  the table has too few entries        31  the n of a capture is not 1 to 14
 *   13  the step is not in the capture       32  the mask of a capture has a bit at its n or above
 *   16  the list is not the capture's
 *
 * Where several apply, one is returned: each function says below which refusals it has and in which order it asks for
 * them.
 *
 * Memory. Every pointer points to as many bytes, or entries of a list, as its parameter says, also where that is 0: it is
 * then any pointer but NULL. Memory that a function writes to overlaps no other memory that it is lent. Memory that is
 * `const` is only read. Nothing is kept after the call, nothing is allocated, and no function has state: all may be called
 * from several threads at once. Numbers of more than one byte are big-endian; but a list or table is one of numbers,
 * `uint16_t` or `uint32_t`, in the machine's own order, at a place that suits them.
 *
 * Options are one byte, the spare byte of a capture in a book. 1 is the setting hold: the controller keeps a command that is
 * overridden, and brings it back once the cause has gone. 0 is the controller without it. Above 1 there are none.
 *
 * A record of a controller is 12 bytes: n (1), options (1), mask (2), W (2), accepted K1 (1), accepted K2 (1), K1 last sent
 * (1), steps of wait left (2), the held command as a K1 (1): F0 lockout, Ec forced switch, 8c manual switch of section c, 00
 * for none. Without hold it is 00, and the held command is the one last sent.
 */
#ifndef CHAINPLATER_H
#define CHAINPLATER_H

#include <stddef.h>
#include <stdint.h>

#ifdef __cplusplus
extern "C" {
#endif

#define CHAINPLATER_RECORD 12
#define CHAINPLATER_K1 4
#define CHAINPLATER_DECODED 6
#define CHAINPLATER_ENCODED 2
#define CHAINPLATER_STEP 19
#define CHAINPLATER_VERDICT 3
#define CHAINPLATER_CHANGES 2
#define CHAINPLATER_CHANGE 3
#define CHAINPLATER_CONTENTS 769
#define CHAINPLATER_SIZE 4
#define CHAINPLATER_PAGE 2048

/*
 * A fresh controller with these options for n sections, of which those in the mask (bit c - 1 for section c) are of high
 * priority, with a wait to restore of `wait` steps. Refusals 25 (options above 1), 1, 2, in this order.
 * record: the record; zeros where refused.
 */
uint8_t chainplater_fresh(uint8_t n, uint8_t options, uint16_t mask, uint16_t wait, uint8_t record[CHAINPLATER_RECORD]);

/*
 * What the coder's rules say of a K1, whatever the K2 with it is.
 * out: 0 the rank of its request, 1 the least and 2 the greatest n, of 1 to 14, for which it is usable, 3 the mark: 3 (code)
 * or 4 (channel) where no n makes it usable, else 0. Where there is a mark, the others are 0. For probe makers: a usable
 * value is one with a least n above 0; a rank of 0 alone says nothing, since RR and NR have it too.
 */
void chainplater_k1(uint8_t k1, uint8_t out[CHAINPLATER_K1]);

/*
 * What a pair of bytes says on a line of n sections: a request, if it is usable; or an alarm; or nothing, and its mark
 * tells why. An alarm is a pair with bit 5 at 1 and line bits 111, whatever else it has: the multiplex section carries
 * an alarm signal. It is not usable, and has no mark. Refusal 1.
 * out: 0 mark (1 to 5; 0 where the pair is usable or an alarm), 1 request code, 2 channel, 3 bridged channel, 4 remote
 * defect (1 or 0), 5 alarm (1 or 0). So a pair is usable if bytes 0 and 5 are 0. All but the mark or the alarm is 0
 * where the pair is not usable; all is 0 where refused.
 */
uint8_t chainplater_decode(uint8_t n, uint8_t k1, uint8_t k2, uint8_t out[CHAINPLATER_DECODED]);

/*
 * The pair of bytes that decodes to what is given. Refusals 1, 10, in this order; a `remote` above 1 is refusal 10.
 * out: 0 K1, 1 K2; zeros where refused.
 */
uint8_t chainplater_encode(uint8_t n, uint8_t code, uint8_t channel, uint8_t bridged, uint8_t remote,
                           uint8_t out[CHAINPLATER_ENCODED]);

/*
 * One step: the controller of that record receives k1 and k2, sees the conditions of sections 0 to n (0 good, 1
 * degraded, 2 failed; `count` is n + 1) and is given a command (0 none, 1 clear, 2 lockout, 3 forced switch, 4 manual
 * switch) for a channel (0 for the first three, 1 to n for the other two). Of sections that ask at equal rank section 0
 * comes first, then the one whose request the record has as last sent, then the lower one; against the accepted request
 * the lower channel wins. Where the pair received is an alarm, the step acts as if section 0 had failed, whatever
 * condition it was handed for it; the conditions are checked as they are handed in.
 * With hold, a new command is held if none is, or if it is of higher rank than the held one, and is then taken even if it is
 * not sent; else it is denied. What is held stays so until a clear, or until such a command; a clear is always taken. Without
 * hold a command that is not sent is forgotten and, if new, denied.
 * Refusals 1 to 7, in this order. A record is acceptable (refusal 3) if its options are not above 1, its accepted pair is
 * usable, its K1 last sent is a usable one whose code goes with the mask, its steps of wait are 1 to W with WTR and else 0,
 * and its held command is 00 or, with hold, F0, Ec or 8c with c from 1 to n.
 * out: 0 the refusal, 1 to 12 the record after the step, 13 K1 sent, 14 K2 sent, 15 channel bridged, 16 channel
 * selected, 17 mark of the received pair, 18 fate of the command (0 none was given, 1 taken, 2 denied). Where
 * refused: the refusal, the record as it was given, and zeros.
 */
uint8_t chainplater_step(const uint8_t record[CHAINPLATER_RECORD], uint8_t k1, uint8_t k2,
                         const uint8_t *conditions, size_t count, uint8_t command, uint8_t channel,
                         uint8_t out[CHAINPLATER_STEP]);

/*
 * The judge. A capture is four bytes a step: K1 and K2 received, K1 and K2 sent. It is explained if there are section
 * conditions and commands, one set a step, with which a fresh controller of these settings, receiving those bytes, sends
 * precisely these. Refusals 25 (options above 1), 1, 2, 8, 9, in this order. Hold changes no verdict: a capture is explained
 * with it exactly if it is without it.
 * out: 0 the verdict (1 explained, 2 unexplained, 0 refused), 1 and 2 the number of steps if explained, the first
 * step, counted from 0, up to which there is no explanation if not, 0 where refused.
 */
uint8_t chainplater_judge(uint8_t n, uint8_t options, uint16_t mask, uint16_t wait, const uint8_t *capture,
                          size_t length, uint8_t out[CHAINPLATER_VERDICT]);

/*
 * The judge, which also shows how an explained capture came about: for each step a word of section conditions and a word of
 * command. A fresh controller of these settings that receives the bytes of the capture under these conditions and commands
 * sends the bytes of the capture, step by step. A capture can have many such causes; these are some.
 * A word of conditions has two bits a section (0 good, 1 degraded, 2 failed), section 0 lowest, and the bits above section n
 * at 0. A word of command has the command (0 none, 1 clear, 2 lockout, 3 forced switch, 4 manual switch) in its upper byte
 * and the channel in its lower.
 * `conditions_room` and `commands_room` are the numbers of words that the two tables have, not of bytes.
 * Refusals, in this order: 25 (options above 1), 1, 2, 8, 9; 11 if either table has fewer words than the capture has steps.
 * They come before the verdict: a capture that nothing explains is refused too if a table is short.
 * conditions, commands: explained, a word for each step, from step 0, and what stands behind the last step's as it was; not
 * explained or refused, all as it was.
 * out: as for chainplater_judge.
 */
uint8_t chainplater_causes(uint8_t n, uint8_t options, uint16_t mask, uint16_t wait, const uint8_t *capture,
                           size_t length, uint32_t *conditions, size_t conditions_room, uint16_t *commands,
                           size_t commands_room, uint8_t out[CHAINPLATER_VERDICT]);

/*
 * The list of the switches. A change is a step, counted from 0, whose sent K1 differs from that of the step before it; the one
 * before step 0 counts as 00. The changes are listed in rising order, one an entry of the table. The first `listed` steps of
 * the capture are listed already, in the first `count` entries; the changes among the other steps are put behind these. With 0
 * for both the list is made afresh. `room` is the number of entries that the table has.
 * Refusals, in this order: 8, 9; 13 if `listed` is more than the steps of the capture; 16 if the first `count` entries are not
 * exactly the changes among the first `listed` steps, or the table has fewer than `count`; 12 if the table has fewer entries
 * than the whole capture has changes.
 * table: the entries from `count` on, up to the number of changes, are written, and no other; refused: all as it was.
 * out: the number of changes of the whole capture (2); zeros where refused.
 */
uint8_t chainplater_switches(const uint8_t *capture, size_t length, uint16_t listed, uint16_t count, uint16_t *table,
                             size_t room, uint8_t out[CHAINPLATER_CHANGES]);

/*
 * The last change of a capture at or before a step, looked up in the list of its changes, which has `count` entries.
 * Refusals, in this order: 8, 9; 13 if the step, counted from 0, is not in the capture; 16 if the list is not that of the
 * whole capture, also where it is right up to the step.
 * out: 0 whether there is such a change (1 or 0), 1 and 2 its step; zeros where there is none, and where refused.
 */
uint8_t chainplater_last_change(const uint8_t *capture, size_t length, const uint16_t *list, size_t count,
                                uint16_t step, uint8_t out[CHAINPLATER_CHANGE]);

/*
 * The contents of a book. Refusals 20 to 24, in this order; then entry by entry 25, 31, 32, 26, 27, so that 27 of one
 * entry comes before 25 of the next; then 28.
 * out: 0 the count of captures, then 64 places of 12 bytes: n (1), spare (1), mask (2), W (2), offset of the body in
 * the book (4), steps (2). The spare byte holds the options of the capture. The places past the count are zeros; all is 0
 * where refused. A body is four bytes a step, from its offset.
 */
uint8_t chainplater_read(const uint8_t *book, size_t length, uint8_t out[CHAINPLATER_CONTENTS]);

/*
 * The book of some contents, laid out as chainplater_read answers them, and of the bodies joined in that order. The
 * offset bytes of the places, and the places past the count, are not looked at. Refusals 23; then entry by entry 25, 31,
 * 32, so that 32 of one entry comes before 25 of the next; then 30, 20, 29, in this order.
 * out: the book at its start, the bytes behind it as they were; refused: all as it was.
 * size: the number of bytes of the book (4); zeros where refused.
 */
uint8_t chainplater_write(const uint8_t contents[CHAINPLATER_CONTENTS], const uint8_t *bodies, size_t length,
                          uint8_t *out, size_t room, uint8_t size[CHAINPLATER_SIZE]);

/*
 * The table of a book, as the program `judge` prints it, in ASCII. A header, `capture sections steps verdict at`; then a line
 * for each capture: its number, counted from 0, its n, its steps, the word `explained` and the number of steps, or
 * `unexplained` and the first step, counted from 0, up to which there is no explanation. Fields are apart by one space,
 * numbers are decimal without leading zeros, and a line feed ends each line. A book without captures has the header alone.
 * A book that chainplater_read refuses has the one line `refused N`, with the number of the refusal and a line feed.
 * out: the text at its start, the bytes behind it as they were; no 0 is put behind it. The longest text has 1,708 characters.
 * Returns the number of characters of the text.
 */
size_t chainplater_table(const uint8_t *book, size_t length, uint8_t out[CHAINPLATER_PAGE]);

#ifdef __cplusplus
}
#endif

#endif
