/* The fork-join race judge: a trace of one run of a fork-join program, judged for data races.
 * Seven calls: racejudge_translate (text to a trace), racejudge_plan (a plan to a trace),
 * racejudge_convert (a trace of version 4 to one of this version), racejudge_judge,
 * racejudge_judge_cards (the same, with a card for each location), racejudge_pairs (every close pair of
 * accesses that race), racejudge_ordering.
 *
 * VERSION 6. racejudge_pairs and its row 20 are new. All else is as it was in version 5.
 *
 * Version 5 had changed the operand of a halt, which names the task that resumes, and row 12, which asks
 * for that; up to version 4 it had to be 0. It had brought racejudge_convert. A caller of version 4 has
 * two things to do: the recorder must write the task that resumes, and each trace that is stored goes
 * once through racejudge_convert, also one that was translated from a text or a plan. Texts and plans
 * themselves stay as they are: the halts that are put in now name the task that resumes.
 *
 * Version 4 had brought racejudge_plan and its rows 17 to 19. Version 3 had brought kind 5, a sum, which
 * version 2 refused by row 5, and cards that count sums: for version 2 a caller lent records of 8 bytes,
 * and since lends records of 10. Version 2 had brought the third value that both judges store, `links`:
 * for version 1 a caller lent them two cells.
 *
 * Link libcapi.a, which `tools/archive` writes, for x86-64 Linux. It needs only memset of the C
 * library. Every call takes any contents and any lengths: nothing is required of the numbers in the
 * slices. What the language of the caller must see to: each pointer leads to as many cells as its
 * length says (also where the length is 0 it is not null), `values` leads to as many as the prototype
 * says and is not null, a pointer to uint16_t, uint64_t or racejudge_card is aligned for it, and no
 * buffer that is written overlaps another slice of the same call.
 *
 * No call keeps anything between calls: what it answers and leaves depends on what it is lent alone,
 * and threads may call at the same time, each with buffers of its own. racejudge_translate takes some
 * 25,000 bytes of the stack; racejudge_plan, which calls itself for each level of a plan, up to some
 * 10,000; racejudge_pairs some 1,200; the others less than 1,000.
 *
 * A TRACE is three slices of one length. Entry p of each makes event p; positions count from 0.
 *   kinds     RACEJUDGE_READ .. RACEJUDGE_SUM
 *   tasks     the task that acts, 0 to 1,023
 *   operands  read, write and sum: the location, 0 to 1,023; fork and join: the task, 0 to 1,023;
 *             halt: the task that resumes, 0 to 1,023, or 0 where task 0 itself halts
 * At most RACEJUDGE_MAX_EVENTS events. Reads, writes and sums are ACCESSES. A sum adds to what the
 * location holds, as to a counter: the order of sums among themselves does not matter.
 *
 * THE RULES. The run is serial. At the start the line of tasks holds task 0 alone, and it runs. Only the
 * running task acts. A fork puts the child, whose number is new, immediately left of its parent; the
 * parent pauses and the child runs. A halt ends the running task, which stays in the line. Its paused
 * parent RESUMES: it runs again, and the halt names it. Task 0 has no parent: its halt names 0, and no
 * event follows. A join names the task immediately left of the running one, which leaves the line. A
 * trace may end anywhere.
 *
 * ARCS lead from each event to the same task's next event, from a fork to the child's first event, and
 * from a task's halt to the join that names it. p REACHES q if p = q or a chain of arcs leads from p to
 * q. Two accesses CONFLICT if they have one location and are neither both reads nor both sums: a write
 * conflicts with every access of its location, a sum with reads and writes. They RACE if they conflict
 * and neither reaches the other.
 *
 * THE TABLE OF JOINS puts the 1,024 tasks in trees, each task in one of its own at the start. A join
 * makes one of the joiner's tree and the joined task's: it hangs the top of the smaller, by number of
 * tasks, under the top of the larger; at equal size the joiner's top stays on top. No link changes
 * otherwise. From no task to the top of its tree are there more than RACEJUDGE_MAX_LINKS links.
 *
 * THE WORKSPACE of both judges, the ordering call, the conversion and the call for pairs has at least
 * RACEJUDGE_WORKSPACE + n cells for n events, with any contents. After the refusals 1 to 4 and 16 it is
 * unchanged. After every other answer its first RACEJUDGE_WORKSPACE + n cells are 0 and the rest is
 * unchanged.
 *
 * A REFUSAL has the number of the first condition that holds, and a position: that of the event for
 * 5 to 12, that of the line for 14 and 15, that of the byte for 17 and 18, else 0. The checks go 1 to
 * 4, then 16; then for each event 5, 6, 7 and the one for its kind; 13 or 20 last. The conversion has
 * rows 1 to 3 alone. Rows 14 and 15 are the translation's, and are all that it has. Rows 17 to 19 are
 * all that a plan has: of 17 and 18 the first that is met, from the first byte on, and 19 once the whole
 * plan is read.
 *    1  the three slices differ in length
 *    2  more than 32,768 events
 *    3  the workspace is too short
 *    4  an order buffer has fewer cells than the trace has events (the judge, with cards or without)
 *    5  the kind is above 5
 *    6  task 0 has halted
 *    7  the actor is not the running task
 *    8  the location is above 1,023
 *    9  the forked number is above 1,023
 *   10  the forked number was used before
 *   11  the joined task is not the left neighbour of the actor
 *   12  the operand of the halt is not the task that resumes, or not 0 for task 0's own halt
 *   13  p or q is not below the number of events (the ordering call only)
 *   14  a line, counted from 0, is not of the text form
 *   15  with that line, counted from 0, the text makes more than 2,048 events
 *   16  there are fewer than 1,024 cards (the judge with cards only)
 *   17  a byte, counted from 0, cannot continue a plan; where the plan breaks off, its length
 *   18  that byte, counted from 0, is an S or P that opens level 65
 *   19  a slice has fewer cells than the plan has events, or the plan needs more than 1,024 tasks,
 *       task 0 among them, or more than 32,768 events
 *   20  a slice for the pairs has fewer cells than there are close pairs (the call for pairs only)
 *
 * A TEXT has one event a line, each line ended by a line feed:
 *   Ta|r(Vb)|c      task a reads location b
 *   Ta|w(Vb)|c      task a writes location b
 *   Ta|fork(Tb)|c   task a forks task b
 *   Ta|join(Tb)|c   task a joins task b
 * Numbers are decimal, 0 to 65,535, with no leading zero; c is a source line and is not used. Nothing
 * else is taken: no blank, no carriage return, no empty line. Sums have no lines, and so no text makes
 * one. Nor have halts: where a paused task acts again, the halts of the tasks above it come first, each
 * with the next lower task as its operand. The first 53,274 bytes of a text decide.
 *
 * A PLAN is a leaf, or two plans one after the other (series) or side by side (parallel):
 *   rL, wL, sL   a leaf: reads, writes or adds to location L, decimal, 0 to 1,023, no leading zero
 *   S(G1,G2)     G1, then G2
 *   P(G1,G2)     G1 beside G2
 * Nothing else is taken: no blank, no line feed, not at the end either. Each S or P opens a level, and
 * at most RACEJUDGE_MAX_DEPTH may be open; a lone leaf has depth 0. Task 0 runs the plan. A leaf makes
 * one event. P makes a fork, after which the child runs G1 and halts; then the task that forked it, which
 * the halt names, runs G2 and joins it. Tasks are numbered 1, 2, 3 in the order of the forks. The last
 * event of the plan is the last of the trace: task 0 does not halt. Of two leaves the first reaches the
 * second exactly if the operator where they meet is S and the first is in its left operand.
 */
#ifndef RACEJUDGE_H
#define RACEJUDGE_H

#include <stddef.h>
#include <stdint.h>

#ifdef __cplusplus
extern "C" {
#endif

/* Kinds of event. */
enum { RACEJUDGE_READ, RACEJUDGE_WRITE, RACEJUDGE_FORK, RACEJUDGE_JOIN, RACEJUDGE_HALT, RACEJUDGE_SUM };

#define RACEJUDGE_VERSION 6

/* The version of the archive: racejudge_version() is RACEJUDGE_VERSION. The function's name has the
 * number, so that a program that calls it does not link with an archive of another version. */
#define racejudge_version() racejudge_version_6()
uint64_t racejudge_version_6(void);

#define RACEJUDGE_MAX_EVENTS 32768
#define RACEJUDGE_MAX_LINKS 10
#define RACEJUDGE_WORKSPACE 12288

/* The most events that a text makes: each slice that one is translated to has so many cells at least. */
#define RACEJUDGE_TEXT_EVENTS 2048

/* The most levels of a plan that may be open. */
#define RACEJUDGE_MAX_DEPTH 64

/* One card for each location, and the positions on that of a location which no event touches. */
#define RACEJUDGE_CARDS 1024
#define RACEJUDGE_NOWHERE 65535

/* A pair s, t is close if t - s is at most this. */
#define RACEJUDGE_CLOSE 256

/* A trace of n events has no more close pairs than this: 8,355,712 at the most. */
#define RACEJUDGE_MAX_PAIRS(n) \
    ((size_t)(n) <= RACEJUDGE_CLOSE ? (size_t)(n) * ((size_t)(n) - ((n) != 0)) / 2 \
                                    : RACEJUDGE_CLOSE * (size_t)(n) - 32896)

/* A location's card: how many reads, writes and sums it has, and the positions of the first and the last
 * of them all, RACEJUDGE_NOWHERE for both where there is none. */
typedef struct racejudge_card {
    uint16_t reads, writes, sums, first, last;
} racejudge_card;

/* What racejudge_judge and racejudge_judge_cards return. */
enum { RACEJUDGE_CLEAN = 0, RACEJUDGE_RACE = 1 };

/* What racejudge_ordering returns. */
enum { RACEJUDGE_NO = 0, RACEJUDGE_YES = 1 };

/* What racejudge_translate returns, and of these racejudge_plan the first. */
enum { RACEJUDGE_TRANSLATED = 0, RACEJUDGE_SHORT = 3 };

/* What racejudge_convert returns. */
enum { RACEJUDGE_CONVERTED = 0 };

/* What racejudge_pairs returns. */
enum { RACEJUDGE_LISTED = 0 };

/* What all seven return for a refusal. */
enum { RACEJUDGE_REFUSED = 2 };

/* Judges the whole trace. Returns, and stores in values[0] to values[2]:
 *   RACEJUDGE_CLEAN     0, 0, links    the rules are kept, and every two accesses that conflict are
 *                                      ordered
 *   RACEJUDGE_RACE      s, t, links    t is the first access that races with an earlier one, s the
 *                                      smallest position that it races with; what follows t is not
 *                                      looked at
 *   RACEJUDGE_REFUSED   number, position, 0
 *                                      no two accesses before that event race
 *
 * `links` says how long the chains of the table of joins are after the last event that is looked at: the
 * largest number of links from any task to the top of its tree, at most RACEJUDGE_MAX_LINKS. After clean
 * that is the end of the trace, after a race t, however early s is; the joins behind t do not count.
 *
 * The order buffers have at least as many cells as the trace has events. After a race the first t + 1
 * cells of each hold an order of the events 0 to t that keeps every arc: first the other events that
 * reach s or t, in position order, then s, t (in `first`) or t, s (in `second`), then all others in
 * position order. The cells from t + 1 on are unchanged. After clean or a refusal both buffers are unchanged. */
uint64_t racejudge_judge(const uint8_t *kinds, size_t kinds_len, const uint16_t *tasks,
                         size_t tasks_len, const uint16_t *operands, size_t operands_len,
                         uint16_t *workspace, size_t workspace_len, uint16_t *first,
                         size_t first_len, uint16_t *second, size_t second_len,
                         uint64_t values[3]);

/* Judges the whole trace as racejudge_judge does, with the same answer, workspace and order buffers, and
 * makes the cards. These are at least RACEJUDGE_CARDS records, with any contents; fewer are refused by
 * 16, which leaves every buffer unchanged. After clean record l of the first RACEJUDGE_CARDS is the card
 * of location l, and the records past them are unchanged. After a race or a refusal all are unchanged. */
uint64_t racejudge_judge_cards(const uint8_t *kinds, size_t kinds_len, const uint16_t *tasks,
                               size_t tasks_len, const uint16_t *operands, size_t operands_len,
                               uint16_t *workspace, size_t workspace_len, uint16_t *first,
                               size_t first_len, uint16_t *second, size_t second_len,
                               racejudge_card *cards, size_t cards_len, uint64_t values[3]);

/* Lists every close pair of the trace: each two accesses s and t that race, with s < t and t - s at most
 * RACEJUDGE_CLOSE, in order of t and then of s, each pair once. Races after the first count too. The
 * whole trace must keep the rules 5 to 12. Returns, and stores in values[0] and values[1]:
 *   RACEJUDGE_LISTED    k, 0               there are k close pairs: s of pair i is earlier[i] and t is
 *                                          later[i], for each i below k
 *   RACEJUDGE_REFUSED   number, position   both slices are unchanged
 * Row 20 comes last: `earlier` or `later` has fewer than k cells. RACEJUDGE_MAX_PAIRS(n) cells suffice
 * for n events. The two may differ in length; the cells past the k pairs are unchanged. Where k is 0
 * two accesses may still race that are farther apart: whether any do, racejudge_judge says. */
uint64_t racejudge_pairs(const uint8_t *kinds, size_t kinds_len, const uint16_t *tasks,
                         size_t tasks_len, const uint16_t *operands, size_t operands_len,
                         uint16_t *workspace, size_t workspace_len, uint16_t *earlier,
                         size_t earlier_len, uint16_t *later, size_t later_len, uint64_t values[2]);

/* Does event p reach event q: is p = q, or does a chain of arcs lead from p to q? The whole trace must
 * keep the rules 5 to 12; races do not matter. Returns, and stores in values[0] and values[1]:
 *   RACEJUDGE_NO        0, 0
 *   RACEJUDGE_YES       0, 0
 *   RACEJUDGE_REFUSED   number, position */
uint64_t racejudge_ordering(const uint8_t *kinds, size_t kinds_len, const uint16_t *tasks,
                            size_t tasks_len, const uint16_t *operands, size_t operands_len,
                            uint16_t *workspace, size_t workspace_len, size_t p, size_t q,
                            uint64_t values[2]);

/* Brings a trace over that was stored for version 4 or older, where each halt had the operand 0. Sets the
 * operand of each halt before the first event that breaks a rule to the task that resumes, where row 12
 * is read as it was: the operand of the halt is not 0. Changes nothing else: not that event, though it be
 * a halt, and no halt behind it. Races do not stop it. Returns, and stores in values[0] and values[1]:
 *   RACEJUDGE_CONVERTED   0, 0
 *   RACEJUDGE_REFUSED     number, 0     number is 1, 2 or 3; the operands are unchanged
 * What racejudge_judge of version 4 called clean or a race it now calls the same, with the same
 * positions. A trace that is converted already stays as it is: the first of its halts whose operand is
 * not 0 breaks that row. */
uint64_t racejudge_convert(const uint8_t *kinds, size_t kinds_len, const uint16_t *tasks,
                           size_t tasks_len, uint16_t *operands, size_t operands_len,
                           uint16_t *workspace, size_t workspace_len, uint64_t values[2]);

/* Translates a text to a trace. Returns, and stores in values[0] and values[1]:
 *   RACEJUDGE_TRANSLATED   n, 0             the n events stand at the start of the three slices
 *   RACEJUDGE_REFUSED      number, line     number is 14 or 15
 *   RACEJUDGE_SHORT        0, 0             a slice has fewer than RACEJUDGE_TEXT_EVENTS cells. This is
 *                                           asked first: whatever the text, it is not looked at
 * The cells past the events are unchanged; after the other two answers all cells are. Whether the trace
 * keeps the rules is not asked here: racejudge_judge says so. */
uint64_t racejudge_translate(const uint8_t *text, size_t text_len, uint8_t *kinds, size_t kinds_len,
                             uint16_t *tasks, size_t tasks_len, uint16_t *operands,
                             size_t operands_len, uint64_t values[2]);

/* Reads a plan and writes its trace. Returns, and stores in values[0] and values[1]:
 *   RACEJUDGE_TRANSLATED   n, 0               the n events stand at the start of the three slices
 *   RACEJUDGE_REFUSED      number, position   number is 17, 18 or 19
 * The slices may differ in length: each needs n cells. The cells past the events are unchanged; after a
 * refusal all cells are. The trace, which is the first n cells of each slice, keeps the rules: of it
 * racejudge_judge answers clean or race, where workspace and order buffers are long enough. */
uint64_t racejudge_plan(const uint8_t *text, size_t text_len, uint8_t *kinds, size_t kinds_len,
                        uint16_t *tasks, size_t tasks_len, uint16_t *operands, size_t operands_len,
                        uint64_t values[2]);

#ifdef __cplusplus
}
#endif

#endif
