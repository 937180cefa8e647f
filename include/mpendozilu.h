/* Mpendozilu for C99 and C++: packet pipelines of a programmable switch, held to their rules.
 *
 * Blocks, packets, choice lists and passive forms are lent as 32-bit words, a file as bytes: a pointer to the first, and how many there are.
 * A call reads them in place, changes nothing but what it says that it writes, and keeps no pointer. Where there are none the pointer is not
 * looked at and may be NULL; any other pointer leads to that many, and where they are words it is aligned as a uint32_t is. A call asks
 * nothing of what is lent: it refuses what is wrong. An area that a call may write is one whose pointer isn't const; it lies apart from what
 * else is lent. What is lent to be read may overlap.
 *
 * A call returns 0 on success and otherwise the number of its refusal. The three numbers lie apart from each other and from what else is
 * lent, and none of the pointers to them is NULL. On success they hold what the call names. After a refusal the first is the place. What
 * is not named is written 0, so no call leaves one of them as it was.
 *
 * Calls keep nothing between them, so several threads may call at once, as long as nobody writes what is lent, or reads an area that may
 * be written, until its call returns. The library is compiled for Linux on x86-64. Run, Confirm and Passify call themselves as deep as the
 * pipeline's tree, and Passify along a table's rules: the deepest that we found takes just below 1 MiB, and a thread that calls should have 2.
 *
 * The numbers, and the place that each is given with:
 *
 *      1  file: unknown mark, wrong group, cut record,      byte of the record, or first after RT; file length if
 *         no RT, bytes after RT, too long                   RT is missing; 40,000 if too long
 *      2  counts or length of either block                  0
 *      3  field width                                       its number
 *      4  node                                              its number
 *      5  action                                            its number
 *      6  table                                             its number
 *      7  root not a statement below N                      0
 *      8  node not used exactly once                        node
 *      9  parameter or apply in the wrong place             node
 *     10  rule                                              rule
 *     11  packet length, else value too wide                length, else index
 *     12  no room                                           words needed; 0 if too large
 *     13  widths outside 1 to 32, else valuation length,    index; length; index
 *         else value too wide
 *     14  choice list too short                             entries used
 *     15  entry out of range                                entry: its index in the list
 *     16  condition is true                                 0
 *     17  malformed condition                               entry; 0 for length
 *     18  malformed passive form                            node; 0 for length
 *
 * A number is given exactly when it is the first that applies: smallest number, smallest place next, where the call names no other order.
 */
#ifndef MPENDOZILU_H
#define MPENDOZILU_H

#include <stddef.h>
#include <stdint.h>

#ifdef __cplusplus
extern "C" {
#endif

/* Load: the pipeline block and the rule block of a record file. It judges the records and their order, not what they say, which Check does.
 * Refusals, the first of this order: 1; 12 where the pipeline area is too short for its block, then where the rule area is. On success the
 * first number is the length of the pipeline block and the second that of the rule block, in words, and the third is 0. The blocks stand at
 * the start of their areas; the other words stay, and after a refusal all of them. */
uint64_t mz_load(const uint8_t *file, size_t file_length,
                 uint32_t *pipeline, size_t pipeline_length,
                 uint32_t *rules, size_t rules_length,
                 uint64_t *first, uint64_t *second, uint64_t *third);

/* Check: whether the pipeline block and the rule block keep the rules of document 01. A rule block of no words has no rules.
 * Refusals: 2 to 10. On success the three numbers are 0. */
uint64_t mz_check(const uint32_t *pipeline, size_t pipeline_length,
                  const uint32_t *rules, size_t rules_length,
                  uint64_t *first, uint64_t *second, uint64_t *third);

/* Lookup: where the action and the two data words stand that the table runs for the packet: those of its first rule that matches, or of
 * its default. The packet has F values.
 * It refuses nothing. The answer is empty exactly when Check refuses the blocks (2 to 10), the packet is refused (11), or the table's
 * number isn't below T; the first number is then 0, and so are the others. Else the first is 1 where the three words stand in the rule
 * block and 2 where they stand in the pipeline block, the second is how many words of that block stand before them, and the third is 0. */
uint64_t mz_lookup(const uint32_t *pipeline, size_t pipeline_length,
                   const uint32_t *rules, size_t rules_length,
                   const uint32_t *packet, size_t packet_length,
                   uint32_t table,
                   uint64_t *first, uint64_t *second, uint64_t *third);

/* Run: how the pipeline ends on the packet, with the choice list for its choices and havocs. Entries may be left over, and those that the
 * run doesn't come to are not looked at.
 * Refusals, the first of this order: 2 to 10 as Check; 11; 12 where the end area has fewer than F words; then 14 or 15, whichever the run
 * meets first. On success the first number is 0 for a run that passed, 1 for a blocked one and 2 for a failed one, the second is the node
 * that blocked or failed it, 0 where it passed, and the third is the entries used. The packet as it then is stands in the first F words
 * of the end area; its other words stay, and after a refusal all of them. */
uint64_t mz_run(const uint32_t *pipeline, size_t pipeline_length,
                const uint32_t *rules, size_t rules_length,
                const uint32_t *packet, size_t packet_length,
                const uint32_t *choices, size_t choices_length,
                uint32_t *end, size_t end_length,
                uint64_t *first, uint64_t *second, uint64_t *third);

/* Confirm: whether the packet and the choice list are a counterexample, which they are when the run fails and uses the whole list.
 * Refusals, the first of this order: 2 to 10 as Check; 11; then 14 or 15, whichever the run meets first. On success the first number is 1
 * for yes and 0 for no, and the others are 0. */
uint64_t mz_confirm(const uint32_t *pipeline, size_t pipeline_length,
                    const uint32_t *rules, size_t rules_length,
                    const uint32_t *packet, size_t packet_length,
                    const uint32_t *choices, size_t choices_length,
                    uint64_t *first, uint64_t *second, uint64_t *third);

/* Passify: the pipeline in passive form, n nodes over V variables, of which the first F are the packet's fields.
 * Refusals, the first of this order: 2 to 10 as Check; 12 at 0 where n is above 65,536, whatever room there is; 12 where the node area has
 * fewer than 4n words, then where the width area has fewer than V. On success the first number is n, the second is V, and the third is 0. The
 * nodes, of four words each, stand at the start of the node area and the variables' widths at the start of the width area; the other words
 * stay, and after a refusal all of them. */
uint64_t mz_passify(const uint32_t *pipeline, size_t pipeline_length,
                    const uint32_t *rules, size_t rules_length,
                    uint32_t *nodes, size_t nodes_length,
                    uint32_t *widths, size_t widths_length,
                    uint64_t *first, uint64_t *second, uint64_t *third);

#ifdef __cplusplus
}
#endif

#endif
