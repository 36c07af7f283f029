/* javendriky: moves pebbles on a rooted tree, one step at a time, onto its targets.
 *
 * Words. The names here are the source paper's. People at a yard use the trade's words:
 *
 *   trade       here                              trade       here
 *   berth       node                              account     demand
 *   track       edge, named by its lower node     spare       excess
 *   car         pebble                            disturbed   displaced
 *   push        push, a move that may be refused  bound       length_bound
 *
 * A yard is four lists of n bytes each, n from 1 to 256. Each list has one entry a node, and nodes
 * are numbered from 0:
 *
 *   parents   the parent; one node, the root, is its own, and every climb by parents ends there
 *   pebbles   how many pebbles the node holds, at most its depth
 *   targets   how many pebbles it is to hold, at most its depth: its target count
 *   depths    how many pebbles it can hold, 1 to 8
 *
 * A node has room while it holds fewer pebbles than its depth, else it is full. Two nodes are
 * adjacent if they differ and one is the parent of the other. A yard is matched if it has as many
 * pebbles as targets, and solved if each node holds its target count.
 * A plan is a list of bytes, two for each move: the node that a pebble leaves, then the adjacent
 * node that it enters. Moves are counted from 0.
 *
 * Answers. Each call answers one number a:
 *
 *   a < 1,000,000     accepted: a is the value, or 0 if the call has none
 *   a >= 1,000,000    refused: JAVENDRIKY_REFUSAL(a) is the refusal's number, 1 to 28, and
 *                     JAVENDRIKY_PLACE(a) its place
 *
 * A refused call alters nothing that was lent to it: no list and no number. Every content of the
 * lists is allowed, as what is wrong with it is refused.
 *
 * Refusals. Comments name a refusal without its prefix and give its number: TO_FULL (13) is
 * JAVENDRIKY_TO_FULL, which is 13. Each call makes the tests of its row, in that order, and answers
 * the first refusal that it meets. 'Yard' and 'move' stand for these tests:
 *
 *   yard                  NODE_COUNT (1), LIST_LENGTH (2) of any of the four lists,
 *                         DEPTH_OUTSIDE (26), ABOVE_DEPTH (27), PARENT_OUTSIDE (4), ROOTS (5),
 *                         CIRCLE (6)
 *   move                  MOVE_OUTSIDE (10), NOT_ADJACENT (11), FROM_EMPTY (12), TO_FULL (13)
 *
 *   call                  tests, in this order
 *   version               none
 *   test_yard             yard
 *   plan, openings        yard, TOTALS (7), LIST_TOO_SHORT (8)
 *   plan_parts            yard, TOTALS (7), LIST_LENGTH (2) of `parts`, LIST_TOO_SHORT (8)
 *   length_bound          yard, TOTALS (7)
 *   displaced             yard, TOTALS (7)
 *   longest_plan          NODE_COUNT (1)
 *   demands               yard, LIST_LENGTH (2) of `list`
 *   the four events       yard, LIST_LENGTH (2) of `demands`, NODE_OUTSIDE (19),
 *                         CANNOT_HAPPEN (20), STALE_DEMANDS (23)
 *   nearest               yard, NODE_OUTSIDE (19), NO_PEBBLE (22)
 *   reach                 yard, LIST_LENGTH (2) of `list`, NODE_OUTSIDE (19)
 *   push                  yard, move with place 0
 *   check, excess         yard, TOTALS (7), PLAN_LENGTH (9), move for each move in turn,
 *                         TARGET_UNMET (14)
 *   wear                  as check, then WIDTH (28)
 *   trial                 yard, PLAN_LENGTH (9), move for each move within the budget in turn
 *   step                  yard, LIST_LENGTH (2) of `registers`, WRONG_REGISTER (24), and then:
 *     command start       NOT_IDLE (25), then as check
 *     none, running       PLAN_LENGTH (9), move for the next move
 *     any other           none
 *   read_sheet            READER_LIST (18), HEADER (15), then line by line NODE_COUNT (1),
 *                         LINE_SHAPE (16), NODE_NUMBER (17)
 *   write_sheet           NODE_COUNT (1), LIST_LENGTH (2), LIST_TOO_SHORT (8)
 *
 * Lists. A list is passed as a pointer and the number of its elements (elements, not bytes, for
 * int16_t too). The caller owns the elements. The caller sees to it that:
 *
 *   - the pointer leads to that many elements, aligned for their type; it is NULL only with
 *     length 0
 *   - nobody else writes them during the call
 *   - a list that the call writes overlaps no other list of that call
 *
 * A list passed as const is only read. No call keeps a pointer, asks for memory or has a state of
 * its own. So calls on different lists may run at the same time.
 *
 * Numbers. A call with further values writes each through a pointer to one uint32_t. Such a pointer
 * is never NULL. Its number overlaps no list of the call and no other number that the call writes.
 *
 * Stack. No call needs more than 40 KiB of stack. javendriky_plan and javendriky_plan_parts take
 * that on a line of 256 nodes; every other call needs at most 6 KiB (measured with the library that
 * `tools/build` makes for x86-64). */
#ifndef JAVENDRIKY_H
#define JAVENDRIKY_H

#include <stddef.h>
#include <stdint.h>

#ifdef __cplusplus
extern "C" {
#endif

/* The version of these calls, which javendriky_version answers. It is raised when a call is added,
 * gets other parameters, or gets another meaning. A program built with another header would still
 * link, so compare the two once, before any other call. */
#define JAVENDRIKY_VERSION 12

/* The most nodes of a yard. */
#define JAVENDRIKY_MAX_NODES 256

/* The greatest depth: the most pebbles that a node can hold. */
#define JAVENDRIKY_MAX_DEPTH 8

/* The most bytes of a plan that is handed to javendriky_check, javendriky_excess, javendriky_wear,
 * javendriky_trial or javendriky_step: 131,072 moves. */
#define JAVENDRIKY_MAX_PLAN_BYTES 262144

/* The bytes of the longest plan that javendriky_plan writes: 131,072 moves for 256 nodes, two bytes
 * each (proved: longest_most in crates/laws/proofs). A plan list of so many bytes never meets
 * LIST_TOO_SHORT (8). For one yard javendriky_length_bound tells the bytes needed, mostly far
 * fewer; for a number of nodes javendriky_longest_plan tells the moves. */
#define JAVENDRIKY_LONGEST_PLAN_BYTES (JAVENDRIKY_MAX_DEPTH * (JAVENDRIKY_MAX_NODES * JAVENDRIKY_MAX_NODES / 4) * 2)

/* What an accepted javendriky_trial adds to the moves taken if the budget ended it. */
#define JAVENDRIKY_BUDGET_ENDED 500000

/* The bytes of the longest yard sheet: room for any that javendriky_write_sheet writes. */
#define JAVENDRIKY_MAX_SHEET_BYTES 5040

/* The two parts of an answer: the refusal's number, 0 for an accepted call, and its place. */
#define JAVENDRIKY_REFUSAL(a) ((uint32_t)(a) / 1000000u)
#define JAVENDRIKY_PLACE(a) ((uint32_t)(a) % 1000000u)

/* The refusals. After the semicolon stands the place: 0, a node, a move, a line or a register.
 * LIST_TOO_SHORT (8) has as place the moves that the list must hold, for javendriky_write_sheet the
 * bytes. NODE_COUNT (1) has a line as place only in javendriky_read_sheet. ABOVE_DEPTH (27) looks
 * at all pebbles before any target. The numbers 3 and 21 are unused: no call answers them. */
#define JAVENDRIKY_NODE_COUNT 1      /* the number of nodes is 0 or above 256; 0, or the line */
#define JAVENDRIKY_LIST_LENGTH 2     /* a list has not n entries, or the block not 9; 0 */
#define JAVENDRIKY_PARENT_OUTSIDE 4  /* a parent is n or more; the lowest such node */
#define JAVENDRIKY_ROOTS 5           /* no root, or several; 0, or the second-lowest root */
#define JAVENDRIKY_CIRCLE 6          /* climbing never reaches the root; the lowest such node */
#define JAVENDRIKY_TOTALS 7          /* the yard is not matched, so it has no plan; 0 */
#define JAVENDRIKY_LIST_TOO_SHORT 8  /* no room for the result; the moves or bytes needed */
#define JAVENDRIKY_PLAN_LENGTH 9     /* a plan has an odd length, or above 262,144 bytes; 0 */
#define JAVENDRIKY_MOVE_OUTSIDE 10   /* a node of a move is n or more; the move */
#define JAVENDRIKY_NOT_ADJACENT 11   /* the two nodes of a move are not adjacent; the move */
#define JAVENDRIKY_FROM_EMPTY 12     /* a move leaves a node without a pebble; the move */
#define JAVENDRIKY_TO_FULL 13        /* a move enters a full node; the move */
#define JAVENDRIKY_TARGET_UNMET 14   /* fewer pebbles at the end than targets; lowest such node */
#define JAVENDRIKY_HEADER 15         /* the first line of a sheet is not the header; line 1 */
#define JAVENDRIKY_LINE_SHAPE 16     /* a later line is not five numbers up to 255; the line */
#define JAVENDRIKY_NODE_NUMBER 17    /* a line is not that of the next node; the line */
#define JAVENDRIKY_READER_LIST 18    /* a list lent to the reader is shorter than 256; 0 */
#define JAVENDRIKY_NODE_OUTSIDE 19   /* the node asked for is n or more; 0 */
#define JAVENDRIKY_CANNOT_HAPPEN 20  /* an event finds none to take, or no room; 0 */
#define JAVENDRIKY_NO_PEBBLE 22      /* the yard holds no pebble; 0 */
#define JAVENDRIKY_STALE_DEMANDS 23  /* an entry of the demands is wrong; the lowest such node */
#define JAVENDRIKY_WRONG_REGISTER 24 /* a register holds what it cannot; the lowest such one */
#define JAVENDRIKY_NOT_IDLE 25       /* a start while running or stalled; 0 */
#define JAVENDRIKY_DEPTH_OUTSIDE 26  /* a depth is 0 or above 8; the lowest such node */
#define JAVENDRIKY_ABOVE_DEPTH 27    /* a count is above its depth; the lowest such node */
#define JAVENDRIKY_WIDTH 28          /* a width of 0, or above the number of moves; 0 */

/* Other names of two refusals, for programs that use them. */
#define JAVENDRIKY_NO_SUCH_NODE JAVENDRIKY_MOVE_OUTSIDE
#define JAVENDRIKY_TARGET_EMPTY JAVENDRIKY_TARGET_UNMET

/* The pusher cabinet's registers: a block of JAVENDRIKY_BLOCK_BYTES bytes. A REGISTER name is the
 * number of the register's first byte. Then the values of command and status, and the bits of the
 * flags and the mask. javendriky_step says what they do. */
#define JAVENDRIKY_BLOCK_BYTES 9
#define JAVENDRIKY_REGISTER_COMMAND 0
#define JAVENDRIKY_REGISTER_STATUS 1
#define JAVENDRIKY_REGISTER_FROM 2
#define JAVENDRIKY_REGISTER_TO 3
#define JAVENDRIKY_REGISTER_LEFT 4   /* moves left: three bytes, the lowest first */
#define JAVENDRIKY_REGISTER_MASK 7
#define JAVENDRIKY_REGISTER_FLAGS 8

#define JAVENDRIKY_COMMAND_NONE 0
#define JAVENDRIKY_COMMAND_START 1
#define JAVENDRIKY_COMMAND_STOP 2
#define JAVENDRIKY_COMMAND_ACKNOWLEDGE 3

#define JAVENDRIKY_STATUS_IDLE 0
#define JAVENDRIKY_STATUS_RUNNING 1
#define JAVENDRIKY_STATUS_STALLED 2

#define JAVENDRIKY_FLAG_FINISHED 1
#define JAVENDRIKY_FLAG_STALLED 2

/* Refusal text: a refusal as a sentence without its full stop: what is wrong, and what to mend.
 * Takes the whole answer of a call, as the place tells which fault NODE_COUNT (1) and ROOTS (5)
 * are. Answers a constant text, never NULL, for any number. The sentences use the trade's words.
 * 'The named berth' (line, move) has the place as its number, so print the place too.
 * `./movesheet`, `./checksheet`, `./yardpicture` and `./yardpage` read their sentences here, so
 * each sentence stands in one line. */
static inline const char *javendriky_refusal_text(uint32_t answer)
{
    switch (answer) {
    case 1000002: return "the sheet has no berth: add a line for each berth below the header";
    case 1000258: return "the sheet goes on behind line 257, and a yard has at most 256 berths: take out what begins at the named line";
    case 5000000: return "no berth is its own parent: let the berth at the root of the tracks name itself as its parent";
    default: break;
    }
    switch (JAVENDRIKY_REFUSAL(answer)) {
    case 0: return "accepted";
    case 1: return "there is no berth, or there are more than 256: hand in lists with an entry for each of 1 to 256 berths";
    case 2: return "a list has not an entry for each berth, or the cabinet's block has not nine bytes: hand in one that has";
    case 4: return "the parent of the named berth is no berth of this sheet: write the number of one that is";
    case 5: return "the named berth is its own parent, and so is a lower one: a yard has one root, so write this berth's real parent";
    case 6: return "climbing from the named berth to its parent and on goes round in a circle and never reaches the root: correct the parent of a berth on that way";
    case 7: return "the numbers of cars and targets differ, so there is no plan: write as many targets as there are cars";
    case 8: return "the list lent for the result is too short: lend one with room for as many moves as the place says, at two bytes each, or for as many bytes of a sheet";
    case 9: return "the plan has an odd number of bytes, or more than 131,072 moves: hand in two bytes for each move, and no more moves than that";
    case 10: return "the named move has a number that is no berth of this yard: write the number of one that is";
    case 11: return "the named move is not along a track: let the car go to the parent of its berth, or to a berth whose parent that is";
    case 12: return "the named move leaves a berth where no car stands at that time: let it leave one where a car stands";
    case 13: return "the named move enters a berth that is full at that time: move a car on from there first";
    case 14: return "the named berth holds fewer cars after the last move than it has targets: add the moves that bring the others there";
    case 15: return "line 1 is not the header: a sheet begins with the line 'berth parent car target depth', which ends in a line feed";
    case 16: return "the named line is not five numbers from 0 to 255, without leading zeros, with one space between and a line feed behind: write it so";
    case 17: return "the named line is not that of the next berth: the berths stand in rising number from 0, one line each";
    case 18: return "a list lent for reading a sheet has fewer than 256 entries: lend four of at least 256";
    case 19: return "the berth asked for is no berth of this yard: name one of those that are, which count from 0";
    case 20: return "the berth has none to take, or no room for one more: tell an arrival or a set target only below its depth, and the others only where there is one";
    case 22: return "the yard holds no car: ask for the nearest one where there is one";
    case 23: return "the account of the named berth is not this yard's, so the account list is an old one or another yard's: work it out anew before the next event";
    case 24: return "the named register of the cabinet holds what it cannot, or the plan has fewer moves than are left: write the register anew, or hand in the right plan";
    case 25: return "the cabinet is not idle: let it finish, or stop it, before it is started";
    case 26: return "the named berth has a depth of 0 or above 8: write how many cars it has room for, from 1 to 8";
    case 27: return "the named berth has more cars, or more targets, than its depth: write no more than it has room for, or the depth that it really has";
    case 28: return "the width is 0, or there are fewer moves in the plan: ask for a width from 1 to the number of moves";
    default: return "this refusal has no sentence in the header that the program was built with: build it with the library's own header";
    }
}

/* Version: the version of the library, JAVENDRIKY_VERSION if it belongs to this header. */
uint32_t javendriky_version(void);

/* Plan: a shortest plan that solves the yard.
 * Answers the number of moves m, which may be 0.
 * Writes the plan into the first 2 * m bytes of `plan`; the bytes after them stay. No move of it is
 * spare: no list of moves that solves the yard is shorter. JAVENDRIKY_LONGEST_PLAN_BYTES are room
 * for any plan.
 * Refused: yard, TOTALS (7), then LIST_TOO_SHORT (8) with place m if `plan` has fewer than 2 * m
 * bytes. */
uint32_t javendriky_plan(const uint8_t *parents, size_t parents_len,
                         const uint8_t *pebbles, size_t pebbles_len,
                         const uint8_t *targets, size_t targets_len,
                         const uint8_t *depths, size_t depths_len,
                         uint8_t *plan, size_t plan_len);

/* Plan in parts: cuts every edge whose demand is 0, and plans each part by itself.
 * The nodes that stay joined are a part. It is named by its topmost node, and planned as a yard of
 * its own under the same node numbers. Both nodes of a move lie in one part, and no part disturbs
 * another: two pushers can work in different parts at the same time. The plans may be mingled
 * in any way that keeps the moves of each part in order; the result is a shortest plan
 * (proved: two_pushers in crates/laws/proofs).
 * Answers the number of moves m of all parts, as many as javendriky_plan answers.
 * Writes the plans into the first 2 * m bytes of `plan`, the part with the lowest topmost node
 * first, and no gap between them; the bytes after them stay. Into `parts` it writes for each node
 * the topmost node of its part.
 * Refused: yard, TOTALS (7), LIST_LENGTH (2) if `parts` has not exactly n entries, then
 * LIST_TOO_SHORT (8) with place m if `plan` has fewer than 2 * m bytes. */
uint32_t javendriky_plan_parts(const uint8_t *parents, size_t parents_len,
                               const uint8_t *pebbles, size_t pebbles_len,
                               const uint8_t *targets, size_t targets_len,
                               const uint8_t *depths, size_t depths_len,
                               uint8_t *plan, size_t plan_len,
                               uint8_t *parts, size_t parts_len);

/* Openings: every move with which some shortest plan starts, and no other.
 * Answers their number k, which is below n. It is 0 exactly if the yard is solved.
 * Writes them into the first 2 * k bytes of `list`, each once, ordered by the node that a pebble
 * leaves and then by the node that it enters; the bytes after them stay. After any of them a
 * shortest plan has one move less (proved: every_opening in crates/laws/proofs).
 * Refused: yard, TOTALS (7), then LIST_TOO_SHORT (8) with place k if `list` has fewer than 2 * k
 * bytes. */
uint32_t javendriky_openings(const uint8_t *parents, size_t parents_len,
                             const uint8_t *pebbles, size_t pebbles_len,
                             const uint8_t *targets, size_t targets_len,
                             const uint8_t *depths, size_t depths_len,
                             uint8_t *list, size_t list_len);

/* Test: whether the four lists are a yard. It need not be matched.
 * Answers 0. Writes nothing.
 * Refused: yard. */
uint32_t javendriky_test_yard(const uint8_t *parents, size_t parents_len,
                              const uint8_t *pebbles, size_t pebbles_len,
                              const uint8_t *targets, size_t targets_len,
                              const uint8_t *depths, size_t depths_len);

/* Demands: for each node the targets minus the pebbles of its subtree, from -2048 to 2048.
 * Answers 0. The yard need not be matched.
 * Writes all n entries of `list`, node 0 first.
 * Refused: yard, then LIST_LENGTH (2) if `list` has not exactly n entries. */
uint32_t javendriky_demands(const uint8_t *parents, size_t parents_len,
                            const uint8_t *pebbles, size_t pebbles_len,
                            const uint8_t *targets, size_t targets_len,
                            const uint8_t *depths, size_t depths_len,
                            int16_t *list, size_t list_len);

/* Bound: how long the plan of javendriky_plan is, without planning.
 * Answers its number of moves.
 * Writes through `bytes` twice that number: javendriky_plan accepts a list exactly if it has at
 * least so many bytes.
 * Refused: yard, TOTALS (7). */
uint32_t javendriky_length_bound(const uint8_t *parents, size_t parents_len,
                                 const uint8_t *pebbles, size_t pebbles_len,
                                 const uint8_t *targets, size_t targets_len,
                                 const uint8_t *depths, size_t depths_len,
                                 uint32_t *bytes);

/* Longest plan: the most moves that any yard of n nodes can need.
 * Answers eight times the whole part of n * n / 4. Some yard, with all depths 8, needs as many.
 * Refused: NODE_COUNT (1) with place 0 if n is 0 or above 256. */
uint32_t javendriky_longest_plan(size_t n);

/* Displaced: how many pebbles some move of the plan of javendriky_plan takes, without planning.
 * Each pebble is followed from its starting node, also one that is pushed off a target. Of the
 * pebbles at a node, the last in leaves first. Writes nothing.
 * Answers the number. At each node, take by how many its pebbles exceed its target count: the
 * answer is at least the sum.
 * Refused: yard, TOTALS (7). */
uint32_t javendriky_displaced(const uint8_t *parents, size_t parents_len,
                              const uint8_t *pebbles, size_t pebbles_len,
                              const uint8_t *targets, size_t targets_len,
                              const uint8_t *depths, size_t depths_len);

/* Events: four calls, while cars come and go and targets are redrawn.
 * A pebble arrives at `node` or leaves it; a target is set there or cleared. The yard need not be
 * matched. `demands` must hold the demands of the yard before the event, as javendriky_demands or
 * the last event left them. The call compares every entry.
 * Answers 0.
 * Writes the entry of `node` in `pebbles` or in `targets`, one more or one less. In `demands` each
 * entry on the way from `node` to the root changes by one; then they are the altered yard's.
 * Refused: yard, LIST_LENGTH (2) if `demands` has not exactly n entries, NODE_OUTSIDE (19),
 * CANNOT_HAPPEN (20), STALE_DEMANDS (23). After STALE_DEMANDS (23) have javendriky_demands write
 * the list anew. */
uint32_t javendriky_pebble_arrives(const uint8_t *parents, size_t parents_len,
                                   uint8_t *pebbles, size_t pebbles_len,
                                   uint8_t *targets, size_t targets_len,
                                   const uint8_t *depths, size_t depths_len,
                                   int16_t *demands, size_t demands_len,
                                   size_t node);
uint32_t javendriky_pebble_leaves(const uint8_t *parents, size_t parents_len,
                                  uint8_t *pebbles, size_t pebbles_len,
                                  uint8_t *targets, size_t targets_len,
                                  const uint8_t *depths, size_t depths_len,
                                  int16_t *demands, size_t demands_len,
                                  size_t node);
uint32_t javendriky_target_set(const uint8_t *parents, size_t parents_len,
                               uint8_t *pebbles, size_t pebbles_len,
                               uint8_t *targets, size_t targets_len,
                               const uint8_t *depths, size_t depths_len,
                               int16_t *demands, size_t demands_len,
                               size_t node);
uint32_t javendriky_target_cleared(const uint8_t *parents, size_t parents_len,
                                   uint8_t *pebbles, size_t pebbles_len,
                                   uint8_t *targets, size_t targets_len,
                                   const uint8_t *depths, size_t depths_len,
                                   int16_t *demands, size_t demands_len,
                                   size_t node);

/* Nearest: the node that holds a pebble and is nearest to `node`, counted in edges either way.
 * Answers that node: the lowest-numbered among equals, `node` itself if it holds a pebble. The
 * yard need not be matched.
 * Writes through `distance` how many edges away it is.
 * Refused: yard, NODE_OUTSIDE (19), NO_PEBBLE (22). */
uint32_t javendriky_nearest(const uint8_t *parents, size_t parents_len,
                            const uint8_t *pebbles, size_t pebbles_len,
                            const uint8_t *targets, size_t targets_len,
                            const uint8_t *depths, size_t depths_len,
                            size_t node, uint32_t *distance);

/* Reach: the nodes at most `reach` edges away from `node` that hold a pebble, or several.
 * Answers how many nodes they are, which may be 0. The yard need not be matched.
 * Writes all n entries of `list`: 1 for each such node, 0 for the others.
 * Refused: yard, LIST_LENGTH (2) if `list` has not exactly n entries, NODE_OUTSIDE (19). */
uint32_t javendriky_reach(const uint8_t *parents, size_t parents_len,
                          const uint8_t *pebbles, size_t pebbles_len,
                          const uint8_t *targets, size_t targets_len,
                          const uint8_t *depths, size_t depths_len,
                          uint8_t *list, size_t list_len,
                          size_t node, uint16_t reach);

/* Push: one move, of a pebble at `from` to the adjacent node `to`, which has room.
 * Answers 0. The yard need not be matched. `from` and `to` may be any numbers.
 * Writes two entries of `pebbles`: `from` becomes one less, `to` one more.
 * Refused: yard, then move with place 0. */
uint32_t javendriky_push(const uint8_t *parents, size_t parents_len,
                         uint8_t *pebbles, size_t pebbles_len,
                         const uint8_t *targets, size_t targets_len,
                         const uint8_t *depths, size_t depths_len,
                         size_t from, size_t to);

/* Check: whether a plan, obeyed from its first move to its last, solves the yard.
 * Answers 0. The plan need not be a shortest one. Writes nothing.
 * Refused: yard, TOTALS (7), PLAN_LENGTH (9), move for each move in turn, TARGET_UNMET (14). */
uint32_t javendriky_check(const uint8_t *parents, size_t parents_len,
                          const uint8_t *pebbles, size_t pebbles_len,
                          const uint8_t *targets, size_t targets_len,
                          const uint8_t *depths, size_t depths_len,
                          const uint8_t *plan, size_t plan_len);

/* Excess: how many moves an accepted plan has more than a shortest one.
 * Answers that number. It is even: an edge carries spare moves exactly if it is crossed both ways,
 * and the excess is twice the sum, over all edges, of the rarer way's crossings (proved:
 * spare_found in crates/laws/proofs). Writes nothing.
 * Refused: as javendriky_check. */
uint32_t javendriky_excess(const uint8_t *parents, size_t parents_len,
                           const uint8_t *pebbles, size_t pebbles_len,
                           const uint8_t *targets, size_t targets_len,
                           const uint8_t *depths, size_t depths_len,
                           const uint8_t *plan, size_t plan_len);

/* Wear: how often one edge is crossed, either way, within `width` moves in a row.
 * Answers the most crossings of one edge within any such stretch of an accepted plan. The plan need
 * not be a shortest one. Of a planned sheet as one stretch it is the largest size of a demand
 * (proved: wear_planned in crates/laws/proofs). The time does not depend on the width.
 * Writes through `first` the number of the move at which the earliest such stretch begins. Writes
 * through `edge` the lowest edge that has as many crossings in it.
 * Refused: as javendriky_check, then WIDTH (28) if `width` is 0 or above the number of moves. */
uint32_t javendriky_wear(const uint8_t *parents, size_t parents_len,
                         const uint8_t *pebbles, size_t pebbles_len,
                         const uint8_t *targets, size_t targets_len,
                         const uint8_t *depths, size_t depths_len,
                         const uint8_t *plan, size_t plan_len,
                         uint32_t width, uint32_t *first, uint32_t *edge);

/* Trial: obeys a plan from its first move until `budget` moves are taken or the plan ends.
 * Answers the number of moves taken. It adds JAVENDRIKY_BUDGET_ENDED if moves of the plan are left;
 * if both end together, the plan has ended. The yard need not be matched. Moves past the budget are
 * not examined. A plan of more than 65,535 moves is longer than any budget: hand its rest to a
 * further trial.
 * Writes the new counts into `pebbles`.
 * Refused: yard, PLAN_LENGTH (9), move for each move within the budget in turn. Then `pebbles` is
 * as it was, although earlier moves were legal. */
uint32_t javendriky_trial(const uint8_t *parents, size_t parents_len,
                          uint8_t *pebbles, size_t pebbles_len,
                          const uint8_t *targets, size_t targets_len,
                          const uint8_t *depths, size_t depths_len,
                          const uint8_t *plan, size_t plan_len,
                          uint16_t budget);

/* Step: one step of the pusher cabinet, which is driven through its block of registers.
 * Hand in yard, plan and block as the last step left them, with the next command in the block. The
 * next move of the plan has the number: whole moves of the plan minus moves left. An accepted step
 * does what its row says. m is the number of moves of the plan:
 *
 *   status   command       failed  pebbles    status then  from, to   left     flags
 *   idle     none          any     stay       idle         stay       stays    stay
 *   idle     start, m > 0  any     stay       running      stay       m        stay
 *   idle     start, m = 0  any     stay       idle         stay       0        FLAG_FINISHED set
 *   running  none          0       next move  running      that move  1 less   stay
 *            (the last)            is made    idle         that move  0        FLAG_FINISHED set
 *   running  none          not 0   stay       stalled      stay       stays    FLAG_STALLED set
 *   stalled  none          any     stay       stalled      stay       stays    stay
 *   any      stop          any     stay       idle         stay       0        stay
 *   stalled  acknowledge   any     stay       running      stay       stays    0
 *   other    acknowledge   any     stay       stays        stay       stays    0
 *   running  start         any     refused: NOT_IDLE (25)
 *   stalled  start         any     refused: NOT_IDLE (25)
 *
 * After an accepted step the command is JAVENDRIKY_COMMAND_NONE, and the mask is as it was.
 * `failed` other than 0 says that the pebble of the next move did not arrive; from and to show an
 * earlier move. So have the pusher push the next move first, then call step with the outcome.
 * Stop is no pause: no moves are left, and a later start takes the whole plan from the yard as it
 * then is. Nine zeros are a block for power-on.
 * Answers 1 if flags and mask then share a set bit: the interrupt line is raised. Else 0.
 * Writes `registers`, and the two entries of `pebbles` of a move that is made.
 * Refused: yard, LIST_LENGTH (2) if `registers` has not JAVENDRIKY_BLOCK_BYTES bytes, then
 * WRONG_REGISTER (24): place 0 for a command above 3, 1 for a status above 2, 4 for more moves left
 * than the plan has or for none left while not idle, 8 for flags above 3. Then for a start NOT_IDLE
 * (25) and as javendriky_check; for a running step without a command, whatever `failed` is,
 * PLAN_LENGTH (9) and move, with the move's number in the plan as place. A refused command stays in
 * the block: the next step meets it again unless it is overwritten. */
uint32_t javendriky_step(const uint8_t *parents, size_t parents_len,
                         uint8_t *pebbles, size_t pebbles_len,
                         const uint8_t *targets, size_t targets_len,
                         const uint8_t *depths, size_t depths_len,
                         const uint8_t *plan, size_t plan_len,
                         uint8_t *registers, size_t registers_len,
                         uint8_t failed);

/* Moves left: the number that the three bytes of a block's moves left hold. */
static inline uint32_t javendriky_moves_left(const uint8_t *registers)
{
    const uint8_t *left = registers + JAVENDRIKY_REGISTER_LEFT;
    return left[0] + 256u * left[1] + 65536u * left[2];
}

/* Read sheet: the four lists of a yard sheet.
 * A sheet is the line 'berth parent car target depth', then a line for each node in rising number
 * from 0: the node, its parent, its pebbles, its targets and its depth. They are decimal numbers
 * from 0 to 255 without leading zeros, one space between. Every line ends with a line feed.
 * Answers the number of nodes n. Whether the lists are a yard is not tested.
 * Writes the first n entries of each of the four lists; the others stay.
 * Refused: READER_LIST (18) if one of the four lists has fewer than 256 entries; HEADER (15);
 * NODE_COUNT (1) with place 2 if no line follows the header. Then line by line, with the line as
 * place, the header being line 1: NODE_COUNT (1) if bytes follow line 257, LINE_SHAPE (16),
 * NODE_NUMBER (17). */
uint32_t javendriky_read_sheet(const uint8_t *sheet, size_t sheet_len,
                               uint8_t *parents, size_t parents_len,
                               uint8_t *pebbles, size_t pebbles_len,
                               uint8_t *targets, size_t targets_len,
                               uint8_t *depths, size_t depths_len);

/* Write sheet: the yard sheet of four lists. Their entries may be any bytes.
 * Answers the number of bytes of the sheet.
 * Writes them into the front of `sheet`; the bytes after them stay. Reading the sheet gives back
 * the lists.
 * Refused: NODE_COUNT (1), LIST_LENGTH (2), LIST_TOO_SHORT (8) with the bytes needed as place. */
uint32_t javendriky_write_sheet(const uint8_t *parents, size_t parents_len,
                                const uint8_t *pebbles, size_t pebbles_len,
                                const uint8_t *targets, size_t targets_len,
                                const uint8_t *depths, size_t depths_len,
                                uint8_t *sheet, size_t sheet_len);

#ifdef __cplusplus
}
#endif

#endif
