/* The agreement core of a ledger box: the eleven functions of the archive libfirmware.a. First the numbers, then what a caller must know,
 * then a section for each function. docs/CALLS.md has more of the calls: what each needs, in order, and which words it changes. */
#ifndef YARD_H
#define YARD_H

#include <stddef.h>
#include <stdint.h>

#ifdef __cplusplus
extern "C" {
#endif

/* The number of this interface. It goes up when a function, a number or a word's place changes; yard_version gives the archive's. */
#define YARD_VERSION 2

/* Codes of calls. Their arguments and values are in the table at yard_call. */
#define YARD_CALL_OPEN 0
#define YARD_CALL_BLOCK 1
#define YARD_CALL_PREPARE_ON_ACC 2
#define YARD_CALL_PREPARE_ON_COMMITS 3
#define YARD_CALL_STORE 4
#define YARD_CALL_VIEW 5
#define YARD_CALL_ACCUMULATE 6
#define YARD_CALL_DECIDE 7
#define YARD_CALL_REBOOT 8
#define YARD_CALL_RESERVE 9
#define YARD_CALL_REQUEST 10
#define YARD_CALL_REPLY 11
#define YARD_CALL_RECOVER 12

/* Answers. Where several are due the lowest is given; but 10 comes before all others, an open looks for 2, then 12, then 1, and yard_match
 * for 5 last. */
#define YARD_ACCEPTED 0
#define YARD_REFUSED_FORM 1        /* wrong form or lengths of what is lent */
#define YARD_REFUSED_RANGE 2       /* f, a replica, a view to enter or the length of a list of certificates is out of range */
#define YARD_REFUSED_NUMBER 3      /* no such certificate or block; of yard_match: no such place in the list */
#define YARD_REFUSED_STATUS 4      /* the replica's status is not the one needed */
#define YARD_REFUSED_CERTIFICATE 5 /* a certificate or named movement does not fit, a signer counts twice, or the replica does not lead */
#define YARD_REFUSED_BLOCK 6       /* the proposed block is block 0, or not on the block that the ACC or the COMMITs name */
#define YARD_REFUSED_VIEW 7        /* the view is past; of a proposal also: it is not entered yet, or has its proposal */
#define YARD_REFUSED_COUNTER 8     /* the limit is too low: reserve, once or more; of a reserve itself: the counter is at its end */
#define YARD_REFUSED_ROOM 9        /* no free slot for the block or the certificate */
#define YARD_REFUSED_UNREADABLE 10 /* no such code, or other arguments than its own; of yard_write_number: nothing is written */
#define YARD_REFUSED_MOVEMENT 11   /* of yard_balance and yard_match: a movement breaks its rules; of yard_enter: the entry does */
#define YARD_REFUSED_STEPS 12      /* of an open alone: the steps break their rules, or are not eight */
#define YARD_REFUSED_IDENTITY 13   /* of waiting movements: the identity waits already; or it does not, and should leave */
#define YARD_REFUSED_FULL 14       /* of yard_enter alone: YARD_MAX_WAITING wait */

/* The second value of an accepted call that issues a certificate: it was added to the log, or an equal one was found there. */
#define YARD_ADDED 0
#define YARD_FOUND 1

/* The table: three words of header, the steps of the counter, then a row for each of the 2f+1 replicas. */
#define YARD_HEADER_WORDS 3
#define YARD_STEPS 8
#define YARD_ROW_WORDS 9
#define YARD_REPLICAS(f) (2 * (f) + 1)
#define YARD_QUORUM(f) ((f) + 1)                                                        /* numbers in a list of certificates */
#define YARD_ROW(replica) (YARD_HEADER_WORDS + YARD_STEPS + YARD_ROW_WORDS * (replica)) /* where a replica's row begins */
#define YARD_TABLE_WORDS(f) YARD_ROW(YARD_REPLICAS(f))
#define YARD_TABLE_F 0
#define YARD_TABLE_CERTIFICATES 1 /* issued so far; the next gets this number */
#define YARD_TABLE_BLOCKS 2       /* added so far, block 0 among them: 1 after an open */
#define YARD_TABLE_STEPS 3        /* the first of the steps, those of boots 0 to 7 */

/* A replica's row: table[YARD_ROW(replica) + YARD_ROW_LIMIT]. */
#define YARD_ROW_STATUS 0
#define YARD_ROW_BOOT 1        /* its reboots so far, but for those that find or make it retired */
#define YARD_ROW_LOWEST_VIEW 2 /* in which it may still propose, store or enter: 1 after an open */
#define YARD_ROW_LIMIT 3       /* the first view in which it may not, before its counter is moved */
#define YARD_ROW_FLAG 4        /* whether it has proposed in its lowest view */
#define YARD_ROW_STORED_VIEW 5
#define YARD_ROW_STORED_BLOCK 6
#define YARD_ROW_DECIDED_VIEW 7
#define YARD_ROW_DECIDED_BLOCK 8

#define YARD_STATUS_LIVE 0
#define YARD_STATUS_RECOVERING 1
#define YARD_STATUS_RETIRED 2

#define YARD_FLAG_LOWERED 0
#define YARD_FLAG_RAISED 1

/* A certificate in the log: log[YARD_CERTIFICATE_WORDS * number + YARD_CERTIFICATE_KIND]. */
#define YARD_CERTIFICATE_WORDS 8
#define YARD_CERTIFICATE_KIND 0
#define YARD_CERTIFICATE_SIGNER 1
#define YARD_CERTIFICATE_VIEW 2
#define YARD_CERTIFICATE_BLOCK 3
#define YARD_CERTIFICATE_OF_VIEW 4 /* of NEWVIEW, ACC and REPLY: the view in which the block was stored; 0 if none, and in other kinds */
#define YARD_CERTIFICATE_SUBJECT 5 /* the replica that is to recover; 0 but in a REQ and a REPLY */
#define YARD_CERTIFICATE_SUBJECT_BOOT 6 /* and its boot */
#define YARD_CERTIFICATE_SIGNER_BOOT 7  /* the boot of the signer when it was issued */

#define YARD_KIND_PROP 1
#define YARD_KIND_COMMIT 2
#define YARD_KIND_NEWVIEW 3
#define YARD_KIND_ACC 4
#define YARD_KIND_REQ 5
#define YARD_KIND_REPLY 6

/* A block's record: blocks[YARD_BLOCK_WORDS * number + YARD_BLOCK_PARENT]. */
#define YARD_BLOCK_WORDS 2
#define YARD_BLOCK_PARENT 0
#define YARD_BLOCK_HEIGHT 1

/* A movement of pallets, lent to yard_balance and yard_match. */
#define YARD_MOVEMENT_WORDS 4
#define YARD_MOVEMENT_BLOCK 0
#define YARD_MOVEMENT_GIVER 1
#define YARD_MOVEMENT_TAKER 2
#define YARD_MOVEMENT_PALLETS 3

/* The further slice, for movements that wait: so many words, whatever f is. Only this length is promised; what stands in the words is the
 * archive's own business, and may be another with another YARD_VERSION. */
#define YARD_WAITING_WORDS 4219

/* Limits. */
#define YARD_MAX_F 30
#define YARD_MAX_REPLICAS 61
#define YARD_MAX_CERTIFICATES 4096 /* slots of a log; it may have none */
#define YARD_MAX_BLOCKS 4096       /* slots of the blocks; there is at least one */
#define YARD_MAX_LIST 31           /* numbers in a call's list */
#define YARD_MAX_COUNTER 1000000   /* no replica's limit passes it; a step that would is refused, and not cut short */
#define YARD_MAX_VIEW 1000000      /* not out of range; to be entered a view must be below a limit */
#define YARD_MAX_BOOT 1000000
#define YARD_MAX_STEP 4096
#define YARD_MAX_MOVEMENTS 2048
#define YARD_MAX_PALLETS 10000    /* of a movement */
#define YARD_MAX_BALANCE 20480000 /* either way */
#define YARD_MAX_WAITING 512      /* entries */

/* Budgets: slots of the log that each takes, where no more than f+1 replicas enter and store. They follow from the rules of the calls, and
 * examples/budgets.c measures them. A decision takes a slot of the blocks too. */
#define YARD_DECISION_SLOTS(f) (2 * (f) + 4)           /* a decision on an ACC: f+1 NEWVIEWs, the ACC, a PROP and f+1 COMMITs */
#define YARD_DECISION_CALLS(f) (2 * (f) + 6)           /* its calls: one for each of these, a block and a decide */
#define YARD_NEXT_DECISION_SLOTS(f) ((f) + 2)          /* the next, on its COMMITs, where the next leader stored: a PROP, f+1 COMMITs */
#define YARD_NEXT_DECISION_ENTERING_SLOTS(f) ((f) + 3) /* and where that did not, and enters the next view first: a NEWVIEW more */
#define YARD_RECOVERY_SLOTS(f) ((f) + 2)               /* a REQ and f+1 REPLYs */

/* How many decisions a log of so many slots holds, where nothing else is issued: each on an ACC; or the first on an ACC, which takes twice
 * the slots of each further one, on the COMMITs before it. A log of YARD_MAX_CERTIFICATES slots holds 682 or 1,364 with f = 1, and with
 * f = 30 it holds 64 or 127. The second is for logs that have slots for one. */
#define YARD_DECISIONS_ON_ACCS(slots, f) ((slots) / YARD_DECISION_SLOTS(f))
#define YARD_DECISIONS_ON_COMMITS(slots, f) ((slots) / YARD_NEXT_DECISION_SLOTS(f) - 1)

/* A number in columns. */
#define YARD_COLUMNS 8
#define YARD_MAX_NUMBER 99999999
#define YARD_NO_NUMBER 4294967295u /* what reading gives for bytes that are no number */

/* Bytes of stack that each function takes, with its arguments and the return address: what examples/stack.c measures on x86-64, and at most
 * 256 more. The walks of a balance and of a match along a line of blocks call themselves last, which this archive's compiler makes loops
 * of; the figure of a balance also covers memset, which it calls, and what binds memset at the first call. */
#define YARD_VERSION_STACK 64
#define YARD_CALL_STACK 512
#define YARD_PANEL_STACK 256
#define YARD_BALANCE_STACK 4608
#define YARD_OPEN_WAITING_STACK 256
#define YARD_ENTER_STACK 256
#define YARD_WITHDRAW_STACK 256
#define YARD_MATCH_STACK 256
#define YARD_ASK_STACK 256
#define YARD_READ_NUMBER_STACK 64
#define YARD_WRITE_NUMBER_STACK 64

/* What a caller must know
 *
 * Memory. A caller lends three slices: a table of YARD_TABLE_WORDS(f) words, f from 1 to YARD_MAX_F; a log of whole certificates, at most
 * YARD_MAX_CERTIFICATES or none; blocks of whole records, 1 to YARD_MAX_BLOCKS. What they hold before an open does not matter.
 * Nothing is ever taken out: where no slot is free a call that must add gives YARD_REFUSED_ROOM. An open begins another ledger.
 *
 * The ledger. One table has the rows of all replicas and one log every certificate: the slices are the ledger of the whole pool and not one
 * box's part of it. The log stands for the signatures, as all that is in it was issued by calls, and a message is a certificate's number
 * given to a call. A call acts for one replica and changes words of its row alone, beside what it adds to the log or the blocks and their
 * counts; only an open writes all rows. What a block says, and how firms that stand apart share one ledger, is outside of this archive.
 *
 * The promise. Take any calls in any order after one accepted open, up to the next, each lent the same slices, of the same lengths, as the
 * last left them, where nothing else writes. Then of two decided blocks one is in the other's line of parents, and no panel's height falls.
 * Of slices that something else wrote, or of an older copy that was put back, this is not promised; every call is still answered without a
 * fault. Promised too is a way on: whatever calls came before, a decision of a new block can be reached while replicas, counter and room
 * last. The hosts must still make its calls: where they make none, nothing is decided.
 *
 * The way on. Choose f+1 live replicas and a view that is above the lowest view of each and below the limit of each, and that one of them
 * leads. Let the log have YARD_DECISION_SLOTS(f) free slots, and the blocks one. Then YARD_DECISION_CALLS(f) calls in a row, with no other
 * between, are all accepted, on any slices of right form: each of these replicas enters the view; the leader accumulates their NEWVIEWs; a
 * block is added on the one that the ACC names; the leader proposes it on the ACC; each of them stores the PROP; the leader decides on the
 * COMMITs, which gives the new block and the view. After an open and calls alone every certificate is added and none is found: they get the
 * log's next numbers, so that all calls can be written down before the first is made. examples/budgets.c has the calls as a function.
 *
 * What must last. Views: of f+1 views in a row one at least is led by one of the f+1 replicas, so limits that are f+2 above the greatest of
 * their lowest views are enough. A reserve raises a limit, and takes no slot. A replica that has replied may stand at its limit: it
 * reserves before it goes on. Replicas: a recovering one counts again after its recover, for which f+1 others must reply. No call brings
 * back a retired replica, moves a counter past its end, or frees a slot of the log or of the blocks.
 *
 * Room. Each certificate takes its slot for good, whether a decision follows or not. So does each block, also where its proposal is then
 * refused; such a block may still be proposed later, on an ACC or COMMITs that name its parent. Whoever makes calls can use the room up.
 * Beside the slots of the decisions to come keep those of recoveries free, YARD_RECOVERY_SLOTS(f) for each cut that may come: a replica
 * whose power fails when fewer are free does not come back in this ledger, as its request or a reply gives YARD_REFUSED_ROOM.
 *
 * Another ledger. A pool goes over to one while the old one has room for a decision. There it decides a last block, and every yard makes
 * the decide for its own replica, on the same COMMITs: that takes no slot, and is taken from any status. What else is decided there,
 * earlier or later, is in that block's line or has the block in its own. So the yards net each firm's balance at it, from one list of
 * movements. Then the new ledger is opened, in other memory, or in the same after that was copied out. Nothing crosses an open: no block,
 * certificate or decision, and no entry where it is a yard_open_waiting. Block 1 of the new ledger stands for the balances, by movements
 * that give each firm its own. That nobody goes on in the old ledger is for the firms to see to.
 *
 * Waiting movements. A ledger may have a further slice, of YARD_WAITING_WORDS words, for movements that dispatchers enter before any block
 * has them. It is lent to five functions: yard_open_waiting, yard_enter, yard_withdraw, yard_match and yard_ask. A plain open, by
 * yard_call, is not lent it and leaves it as it is, with entries and used places of the ledger before: so open a ledger that has waiting
 * movements with yard_open_waiting, every time. What the slice holds before that does not matter. While only these five change it, an
 * accepted yard_ask gives what a pass over all that came and left since that open would give. After a plain open with a smaller f an entry
 * may name a replica that is none: then all of them but yard_open_waiting give YARD_REFUSED_FORM. Where an answer was lost and no other
 * call was made since, make the call again: an entry that has come, or has left, then gives YARD_REFUSED_IDENTITY.
 *
 * Power. All words of the slices, the further one among them, must outlive a power cut, and their lengths, which are no words of theirs. A
 * replica forgets by its reboot and not by losing words: the reboot clears its stored view and block and its flag, and moves its lowest
 * view up to its old limit. (One that retires it changes its status alone.) It is all that tells a replica that its power failed. Whoever
 * runs the replica makes it, once after each cut of that replica's own power and before any other call for it. A program that keeps the
 * whole pool's slices, stops and goes on with every word in its place has cut no replica. Power must not fail within a call, and the caller
 * sees to that: for one, it makes the call on a copy of the slices, then puts the copy in use by a single write, and only then tells
 * anybody the answer.
 *
 * Recovery. After a reboot a replica is recovering: it makes a request, f+1 others that are live reply to the REQ, and it recovers by their
 * REPLYs. So let no more than f replicas be recovering or retired at once: with fewer than f+1 live ones there may be nobody left to reply,
 * and the ledger comes to a stand for good. A REQ has the lowest view of its replica, which is the old limit. Whoever replies leaves the
 * views below that one, and must reserve before it enters a view where its own limit is no higher. A REQ of an earlier boot is still
 * answered, but its REPLYs serve nobody. A recover takes the stored block of greatest view and makes the lowest view one above that, if it
 * was lower; where this passes the limit it gives YARD_REFUSED_COUNTER: reserve, and recover by the same REPLYs.
 *
 * Pointers. Each comes with its true length, in words (of columns: in bytes), and is aligned as its type, words to 4 bytes. A list, a log,
 * steps or movements of length 0 may be NULL. The slices, the further one among them, the list, the steps or the movements, and what is
 * written beside them (the two values, the height, the balance, the replicas, pallets and earliest) must not overlap. Where they do nothing
 * is promised: a refused call may change words, and rival blocks may be decided, as examples/overlap.c shows. Nothing else is asked: any
 * words in the slices and any numbers are answered, and what is refused changes no word of a slice.
 *
 * Threads. No function keeps anything: the archive has no data of its own. Calls on different memory may run at once. Calls on the same
 * memory must not; yard_panel, yard_balance and yard_ask only read the slices, and may run beside one another, but not beside the others.
 * yard_enter, yard_withdraw and yard_match read the three slices and change the further one alone.
 *
 * Linking. Objects for x86-64 Linux (ELF, the System V calling convention, SSE2), words in the machine's own byte order. Of the C library
 * they want memset alone. Nothing allocates, prints, waits or ends the program. */

/* The archive's YARD_VERSION. Where it is not the header's, the two do not belong together: make no call. */
uint32_t yard_version(void);

/* A call: YARD_ACCEPTED, or the number of its refusal with no word of the slices changed. Both values are always written, as 0 and 0 where
 * it is refused, so look at the answer first.
 *
 *   YARD_CALL_..         replica  number  list               first         second
 *   OPEN                 f        0       none, or 8 steps   replicas      0
 *   BLOCK                0        parent  none               the block     0
 *   PREPARE_ON_ACC       replica  block   the ACC            the PROP      added or found
 *   PREPARE_ON_COMMITS   replica  block   f+1 COMMITs        the PROP      added or found
 *   STORE                replica  PROP    none               the COMMIT    added or found
 *   VIEW                 replica  view    none               the NEWVIEW   added or found
 *   ACCUMULATE           replica  0       f+1 NEWVIEWs       the ACC       added or found
 *   DECIDE               replica  0       f+1 COMMITs        the block     its view
 *   REBOOT               replica  0       none               its boot      its lowest view
 *   RESERVE              replica  0       none               its limit     0
 *   REQUEST              replica  0       none               the REQ       added or found
 *   REPLY                replica  REQ     none               the REPLY     added or found
 *   RECOVER              replica  0       f+1 REPLYs         lowest view   the view in which its block was stored, 0 if none
 *
 * Certificates and blocks are numbers from 0. Another code, a list where none belongs or of more than YARD_MAX_LIST numbers, a prepare on
 * an ACC without just one, and a number or a replica other than the 0 above give YARD_REFUSED_UNREADABLE. Every call but an open tests the
 * form of all words up to the counts, and reads none past them.
 *
 * A decision. A view is a round with one leader: among n replicas (v - 1) mod n leads view v, and view 0 has none. Replicas enter the view;
 * one accumulates f+1 of their NEWVIEWs, which gives an ACC; the leader proposes a block on the ACC's; replicas store the PROP; f+1 COMMITs
 * of different replicas decide. Any live replica may accumulate, but an ACC serves its signer alone, as the leader of the ACC's view. On
 * COMMITs of view v the leader of view v + 1 may propose without NEWVIEWs and ACC; where it has not stored in view v it enters v + 1 first.
 *
 * Status. A live replica prepares, stores, enters views, accumulates and replies; a recovering one requests and recovers; all but a retired
 * one reserve. A decide and a reboot are taken from any.
 *
 * Views. A replica proposes once, in its lowest view; it stores and enters there or above, below its limit. Entering a view makes that the
 * lowest, storing in it the next one; a reply raises it to the REQ's view, which must not be above the replier's limit.
 *
 * The counter. A replica may propose, store and enter below its limit, which begins at the first step. A reserve adds the step of its boot,
 * a reboot that of the new boot, and each is a write of the counter, which ends at YARD_MAX_COUNTER: a reserve past it is refused, and a
 * reboot past it retires the replica for good. An open without steps takes 64, 64, 128, 128, 256, 256, 512 and 1024; a pool's own are
 * YARD_STEPS numbers, each 1 to YARD_MAX_STEP and none smaller than the one before. They are those of boots 0 to 7; later boots have the
 * last. An open reads no word of the slices.
 *
 * Found. A certificate that has all eight words of an issued one is not added again: the number is that one's. The signer's boot is among
 * them, so an ACC or a REPLY issued again after a cut gets a number of its own; the earlier one stays good. examples/cuts.c prints both.
 *
 * A lost answer, where no other call was made since. A view, an accumulate, a request and a reply may be made again: accepted before, it
 * gives the same number and YARD_FOUND, and changes nothing; refused before, it is refused again. A prepare or a store that was accepted
 * gives YARD_REFUSED_VIEW when made again, and so may one that was refused: it was accepted if the last certificate in the log is the one
 * that it was to issue. A decide gives the same again, a recover that was accepted YARD_REFUSED_STATUS. A block, a reboot and a reserve do
 * their work once more. An open empties the ledger; where the steps are to stay, copy them out of the table first, as the list must not lie
 * in it. */
uint32_t yard_call(uint32_t code, uint32_t replica, uint32_t number, const uint32_t *list, size_t list_length, uint32_t *table,
                   size_t table_length, uint32_t *log, size_t log_length, uint32_t *blocks, size_t blocks_length, uint32_t *first,
                   uint32_t *second);

/* The height of a replica's decided block: YARD_ACCEPTED; or YARD_REFUSED_FORM or YARD_REFUSED_RANGE, with a height of 0. It is a word of
 * the block's record, so a panel takes as long as the form test, whatever the height. */
uint32_t yard_panel(const uint32_t *table, size_t table_length, const uint32_t *log, size_t log_length, const uint32_t *blocks,
                    size_t blocks_length, uint32_t replica, uint32_t *height);

/* The balance of a replica's firm at a block: the pallets that the firm received less those that it gave, by the movements that count.
 *
 * A movement says that in its block the firm of replica `giver` gave pallets to the firm of replica `taker`. Its block is an added one
 * other than 0, giver and taker are two different replicas, and the pallets are 1 to YARD_MAX_PALLETS. It counts if its block is in the
 * line of `block`: that block itself, its parent, the parent of that, and so on to block 0. The order of the list does not matter; a
 * movement that stands there twice counts twice. movements_length counts words.
 *
 * A firm that gave 5 pallets has -5 by that, and the one that took them 5: the balances of all firms at one block add up to 0. At block 0
 * each is 0. Any added block may be chosen, decided or not; a decided one is the first value of an accepted decide. That the list holds
 * what the firms put into their blocks is the caller's word: nothing here compares the two.
 *
 * Returns YARD_ACCEPTED; or the lowest that is due of YARD_REFUSED_FORM (of the three slices; more than YARD_MAX_MOVEMENTS, or no
 * whole number of movements), YARD_REFUSED_RANGE (the replica), YARD_REFUSED_NUMBER (the block) and YARD_REFUSED_MOVEMENT (any movement,
 * counted or not). The balance is always written: 0 where refused, so look at the answer first. */
uint32_t yard_balance(const uint32_t *table, size_t table_length, const uint32_t *log, size_t log_length, const uint32_t *blocks,
                      size_t blocks_length, const uint32_t *movements, size_t movements_length, uint32_t block, uint32_t replica,
                      int32_t *balance);

/* A call YARD_CALL_OPEN that is lent the further slice too, and empties it: no entry waits, and no place is used. It reads no word of the
 * slices. `steps` are none, or YARD_STEPS of the pool's own; any other number of them gives YARD_REFUSED_STEPS.
 *
 * Returns YARD_ACCEPTED; or the first that is due of YARD_REFUSED_RANGE (f), YARD_REFUSED_STEPS and YARD_REFUSED_FORM (the length of any of
 * the four slices), with no word changed. `replicas` is always written: 2f+1, or 0 where refused. */
uint32_t yard_open_waiting(uint32_t f, const uint32_t *steps, size_t steps_length, uint32_t *table, size_t table_length, uint32_t *log,
                           size_t log_length, uint32_t *blocks, size_t blocks_length, uint32_t *waiting, size_t waiting_length,
                           uint32_t *replicas);

/* An entry comes, after all that wait: `giver` is to give pallets to `taker`. Its identity is any number but 0 that no waiting entry has;
 * one that has left may come again, as a fresh arrival. Giver, taker and pallets are as in a movement.
 *
 * Returns YARD_ACCEPTED; or the lowest that is due of YARD_REFUSED_FORM (of the four slices), YARD_REFUSED_MOVEMENT (identity 0, a giver or
 * taker that is no replica, both the same, pallets), YARD_REFUSED_IDENTITY (it waits already) and YARD_REFUSED_FULL. */
uint32_t yard_enter(const uint32_t *table, size_t table_length, const uint32_t *log, size_t log_length, const uint32_t *blocks,
                    size_t blocks_length, uint32_t *waiting, size_t waiting_length, uint32_t identity, uint32_t giver, uint32_t taker,
                    uint32_t pallets);

/* The entry of an identity is struck out: YARD_ACCEPTED; or YARD_REFUSED_FORM, or YARD_REFUSED_IDENTITY where it does not wait. */
uint32_t yard_withdraw(const uint32_t *table, size_t table_length, const uint32_t *log, size_t log_length, const uint32_t *blocks,
                       size_t blocks_length, uint32_t *waiting, size_t waiting_length, uint32_t identity);

/* An entry leaves because the movement that the host names for it was decided. The movement has the giver, taker and pallets of the entry;
 * its block is in the line of the replica's decided block; and its place took no entry out before.
 *
 * `place` counts movements from 0, in a list as yard_balance takes it. A movement is known by its place, whatever list is lent: a place
 * that took an entry out is used until the next yard_open_waiting that is accepted, also where another movement stands there. So let a list
 * only grow at its end. All movements that are lent are tested, named or not.
 *
 * Returns YARD_ACCEPTED; or the first that is due of YARD_REFUSED_FORM (of the four slices; more than YARD_MAX_MOVEMENTS, or no whole
 * number of movements), YARD_REFUSED_RANGE (the replica), YARD_REFUSED_NUMBER (the place), YARD_REFUSED_MOVEMENT (any movement),
 * YARD_REFUSED_IDENTITY (it does not wait) and YARD_REFUSED_CERTIFICATE (the movement does not fit, lies outside the line, or its place was
 * used). */
uint32_t yard_match(const uint32_t *table, size_t table_length, const uint32_t *log, size_t log_length, const uint32_t *blocks,
                    size_t blocks_length, uint32_t *waiting, size_t waiting_length, const uint32_t *movements, size_t movements_length,
                    uint32_t replica, uint32_t identity, uint32_t place);

/* What waits for a taker: the pallets of its entries, and the identity of the earliest of them to arrive, 0 if there is none. They are the
 * two words that are kept of the taker, handed out as they stand: where the slice is changed by these five alone, the pallets are at most
 * YARD_MAX_WAITING * YARD_MAX_PALLETS. YARD_ACCEPTED; or YARD_REFUSED_FORM or YARD_REFUSED_RANGE. Both are always written, as 0 and 0 where
 * it is refused. */
uint32_t yard_ask(const uint32_t *table, size_t table_length, const uint32_t *log, size_t log_length, const uint32_t *blocks,
                  size_t blocks_length, const uint32_t *waiting, size_t waiting_length, uint32_t taker, uint32_t *pallets,
                  uint32_t *earliest);

/* The number that YARD_COLUMNS bytes hold: decimal digits to the last column, after blanks, without leading zeros. YARD_NO_NUMBER for other
 * bytes and other lengths. */
uint32_t yard_read_number(const uint8_t *bytes, size_t length);

/* Writes a number right-justified into YARD_COLUMNS bytes: YARD_ACCEPTED; or YARD_REFUSED_UNREADABLE with nothing written where the length
 * is another or the number is above YARD_MAX_NUMBER. examples/columns.c prints the first and the last number of each digit count. */
uint32_t yard_write_number(uint32_t number, uint8_t *bytes, size_t length);

#ifdef __cplusplus
}
#endif

#endif
