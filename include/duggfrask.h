/* Duggfrask, the C interface: plans channel time-slots for the cells of a wireless fieldbus, and checks finished plans.
 *
 * Every call answers a number and up to three values. Number 0 is "done"; 1 to 26 are the
 * refusals of docs/RULES.md. Values that are not named below are 0. No call keeps anything between calls.
 *
 *    1  cells, slots or channels out of range
 *    2  a load beyond the last cell (value: lowest such cell), a load edit of a cell that is not there (the cell), or a flow
 *       of one (the flow's number, from 1)
 *    3  a reach row or bit beyond the last cell, or of a cell to itself (value: lowest row); or an edit or a pair that
 *       names a cell that is not there, or one cell twice (in an edit the value is its "from")
 *    4  the lent table is too short, or too few words are lent; blocked positions count as open ones do
 *    5  the planner, or the mender, finds no room, or flows are to come on top of loads that are too much (values: cell,
 *       fragments short)
 *    6  two clashing cells transmit at one position (values: position, first cell, second cell)
 *    7  a cell has the wrong number of reservations (values: cell, its count)
 *    8  the file ends inside a record, or before one that is due
 *    9  another kind of record is due
 *   10  the record's length is not that of its kind
 *   11  reach pairs do not rise
 *   12  bytes after the last record
 *   13  the lent output is too short (value: bytes needed), or the list of changes is (value: how many there are)
 *   14  a left-over bit of a plan, or of the blocked positions in a site file, is 1
 *   15  burst or period is 0, or repeats are not 1 to 4 (of a flow that asks to be admitted, value: its number, from 1)
 *   16  the share is above 65,535 (of a flow that asks to be admitted, value: its number, from 1)
 *   17  the range sheet is malformed (value: its first bad line, from 1)
 *   18  more than 16 flows
 *   19  the site is not nested, all its cells counted
 *   20  a blocked position that the site does not have (value: lowest such position)
 *   21  the record of blocked positions in a site file blocks none
 *   22  a cell transmits at a blocked position (values: position, cell)
 *   23  no numbering of the cells makes the site nested, all its cells counted
 *   24  the rule is not 1 or 2, or in a site file that gives it not 2
 *   25  the search: more than 64 open positions, or more than 24 fragments
 *   26  the table is not the plan of the site whose load is to change
 *
 * A refused file read has one value: where in the file the refused record begins (12: the first byte too many;
 * 4: 0). A sheet has no records: its 17 gives the line, its 3 the lowest row, its 20 the lowest position.
 * Cells are numbered from 1, positions from 0: slot t and channel f are position (t-1) * channels + (f-1).
 * A pointer that is lent with length 0 is never looked at. Lent parts must not overlap. */
#ifndef DUGGFRASK_H
#define DUGGFRASK_H

#include <inttypes.h>
#include <stddef.h>
#include <stdint.h>

/* The version: one more where a record or a call has another shape than before, or a call another answer. It is also the number
 * of the shared library (libduggfrask.so.4), of the packages and of the command; docs/CHANGES.md says what a caller has to do. */
#define DUGG_VERSION 4

/* The numbers that come back, by name. */
enum dugg_number {
    DUGG_DONE = 0,
    DUGG_BAD_SIZE = 1,
    DUGG_NO_SUCH_CELL = 2,
    DUGG_BAD_REACH = 3,
    DUGG_TABLE_SHORT = 4,
    DUGG_NO_ROOM = 5,
    DUGG_TWO_CLASH = 6,
    DUGG_WRONG_COUNT = 7,
    DUGG_FILE_ENDS = 8,
    DUGG_OTHER_KIND = 9,
    DUGG_BAD_LENGTH = 10,
    DUGG_PAIR_ORDER = 11,
    DUGG_FILE_GOES_ON = 12,
    DUGG_OUTPUT_SHORT = 13,
    DUGG_LEFT_OVER_BIT = 14,
    DUGG_BAD_FLOW = 15,
    DUGG_SHARE_TOO_LARGE = 16,
    DUGG_BAD_LINE = 17,
    DUGG_TOO_MANY_FLOWS = 18,
    DUGG_NOT_NESTED = 19,
    DUGG_NO_SUCH_POSITION = 20,
    DUGG_BLOCKS_NONE = 21,
    DUGG_SENDS_WHERE_BLOCKED = 22,
    DUGG_NO_NUMBERING = 23,
    DUGG_BAD_RULE = 24,
    DUGG_SEARCH_TOO_LARGE = 25,
    DUGG_NOT_THE_PLAN = 26
};

/* The limits, by name: the most cells, slots and channels of a site, its positions, the bytes of a table that is enough for
 * every site, and the flows that may ask at once. */
enum dugg_limit {
    DUGG_MOST_CELLS = 32,
    DUGG_MOST_SLOTS = 128,
    DUGG_MOST_CHANNELS = 16,
    DUGG_MOST_POSITIONS = 2048,
    DUGG_MOST_TABLE = 65536,
    DUGG_MOST_FLOWS = 16
};

/* The calls by number, as dugg_words asks for them. */
enum dugg_call {
    DUGG_CALL_FAULT = 1,
    DUGG_CALL_CLASH = 2,
    DUGG_CALL_SET_LOAD = 3,
    DUGG_CALL_SET_REACH = 4,
    DUGG_CALL_CLEAR_REACH = 5,
    DUGG_CALL_LOAD_TEST = 6,
    DUGG_CALL_CHAIN = 7,
    DUGG_CALL_CLASS = 8,
    DUGG_CALL_LEAST = 9,
    DUGG_CALL_HEAVIEST = 10,
    DUGG_CALL_PLAN = 11,
    DUGG_CALL_SEARCH = 12,
    DUGG_CALL_FIND = 13,
    DUGG_CALL_OVER_FULL = 14,
    DUGG_CALL_CHECK = 15,
    DUGG_CALL_PLAN_WORDS = 16,
    DUGG_CALL_CHECK_WORDS = 17,
    DUGG_CALL_TO_WORDS = 18,
    DUGG_CALL_TO_BYTES = 19,
    DUGG_CALL_MEND = 20,
    DUGG_CALL_CHANGE_LOAD = 21,
    DUGG_CALL_RENUMBER = 22,
    DUGG_CALL_CARRY = 23,
    DUGG_CALL_SHARE = 24,
    DUGG_CALL_SHARE_REPEATED = 25,
    DUGG_CALL_ADMIT = 26,
    DUGG_CALL_ADMIT_BESIDE = 27,
    DUGG_CALL_READ_SITE = 28,
    DUGG_CALL_WRITE_SITE = 29,
    DUGG_CALL_READ_PLAN = 30,
    DUGG_CALL_WRITE_PLAN = 31,
    DUGG_CALL_READ_SHEET = 32,
    DUGG_CALL_WRITE_SHEET = 33,
    DUGG_CALL_TIDY = 34,
    DUGG_CALL_WORDS = 35,
    DUGG_CALL_WHY = 36,
    DUGG_CALL_LIST = 37,
    DUGG_CALL_VERSION = 38
};

#ifdef __cplusplus
extern "C" {
#endif

/* A site: 1 to 32 cells, 1 to 128 slots, 1 to 16 channels, the load of each cell in fragments per superframe, and
 * who reaches whom: bit b-1 of reach[a-1] is set when cell a's transmissions can disturb cell b's. Loads and reach
 * of cells that the site does not have are 0. Where the plant runs its own Wi-Fi a position is blocked: position k is when
 * bit k % 64 of blocked[k / 64] is set. The other positions are open. Bits of positions that the site does not have, from
 * slots * channels on, are 0. Everything may be blocked. The rule says which cells clash: under rule 1, that of running
 * sites, two cells do when either reaches the other; under rule 2 also when some third cell is reached by both. A record
 * that was all zeros but for its sizes, loads and reach has to be given its rule, 1: a rule of 0 is refusal 24. */
typedef struct {
    uint16_t cells, slots, channels, loads[32];
    uint32_t reach[32];
    uint64_t blocked[32];
    uint16_t rule;
} dugg_site;

/* The blocked positions alone, as a site has them: they are given beside a range sheet. */
typedef struct { uint64_t bits[32]; } dugg_blocked;

/* The number given back, and the values that belong to it. */
typedef struct { uint64_t number, value[3]; } dugg_answer;

/* To print an answer: printf("clash: " DUGG_ANSWER_FORMAT "\n", DUGG_ANSWER_VALUES(a)); the number, then the values. */
#define DUGG_ANSWER_FORMAT "%" PRIu64 " (%" PRIu64 ", %" PRIu64 ", %" PRIu64 ")"
#define DUGG_ANSWER_VALUES(a) (a).number, (a).value[0], (a).value[1], (a).value[2]

/* A site and the answer beside it: from an edit, the edited site, or the site as it came if the edit is refused; from
 * a site file or a range sheet, the site that was read, or a site of zeros if it is refused. */
typedef struct { dugg_site site; dugg_answer answer; } dugg_edited;

/* What a plan file says of its site, or three zeros if the file is refused, and the answer. */
typedef struct { uint16_t cells, slots, channels; dugg_answer answer; } dugg_plan_read;

/* A site in new numbers, for each old number the new one and for each new number the old one, and the answer. */
typedef struct { dugg_site site; uint16_t new_of_old[32], old_of_new[32]; dugg_answer answer; } dugg_renumbered;

/* A flow that asks to be admitted: its cell by number, its burst in fragments, its period in slots, how many times each
 * fragment is sent, and what it is worth. */
typedef struct { uint16_t cell, burst, period, repeats, value; } dugg_flow;

/* Is the site record in order? 0, or refusal 1, 24, 2, 3 or 20, in this order. Every call that takes a site asks this first. */
dugg_answer dugg_fault(dugg_site site);

/* Do cells a and b clash, that is, does either reach the other or, under rule 2, is a third cell reached by both? Done:
 * value[0] is 1 for yes and 0 for no. A cell that the site does not have clashes with none, and no cell clashes with
 * itself. */
dugg_answer dugg_clash(dugg_site site, uint16_t a, uint16_t b);

/* Sets the load of one cell, in fragments per superframe. Refusal 2 gives the cell asked for. */
dugg_edited dugg_set_load(dugg_site site, uint16_t cell, uint16_t load);

/* Notes that cell "from" reaches cell "to". Refusal 3 gives "from". */
dugg_edited dugg_set_reach(dugg_site site, uint16_t from, uint16_t to);

/* Notes that cell "from" does not reach cell "to". Refusal 3 gives "from". */
dugg_edited dugg_clear_reach(dugg_site site, uint16_t from, uint16_t to);

/* Does the load of each cell with load above 0, with the loads of its lower-numbered clashing cells, fit into the open
 * positions? Done: 0, 0, 0 if so; otherwise the lowest such cell that is over, and by how many fragments. */
dugg_answer dugg_load_test(dugg_site site);

/* Is the site chained: for each clashing pair a < c, does each cell between them clash with a? Only cells with load
 * above 0 are asked, as a, as c and between. Done: 0, 0, 0 if so; otherwise the first a, b, c where b does not. */
dugg_answer dugg_chain(dugg_site site);

/* Is the site nested: for each cell, do its lower-numbered clashing cells clash with one another? Only cells with load
 * above 0 are asked. Each chained site is nested. Done: 0, 0, 0 if so; otherwise a, b, i: the lowest cell i with two
 * lower clashing cells a < b that do not clash, the lowest such a, and for it the lowest b. */
dugg_answer dugg_class(dugg_site site);

/* How many open positions do for the cells, loads, reach and rule of the site, whatever slots and channels it has and
 * whatever is blocked? Done: value[0] is how many: with so many or more the site is planned. It can be above 2,048, the most
 * that a site has. value[1] is 0 on a nested site: fewer never do, whoever plans; otherwise it is 1: fewer may. */
dugg_answer dugg_least(dugg_site site);

/* The heaviest clash: of all sets of cells that clash with one another the one with the greatest load; of equals, the
 * one with the smallest word. No two of them transmit at one position, so every valid table has at least so many
 * open positions, and where the load is above their number no plan exists. On a nested site the load is the number
 * that dugg_least gives. Done: value[0] is the load, value[1] the cells, bit i-1 for cell i; 0 and 0 if no cell has a
 * load. */
dugg_answer dugg_heaviest(dugg_site site);

/* Plans the site into the table, one byte per cell and position, cell after cell: 0 idle, 1 reserved, 2 forbidden. A
 * blocked position is skipped: its byte is 0 in every row.
 * The table needs cells * slots * channels bytes (refusal 4); bytes past those are not written. Refusal 5 gives the
 * first cell without room and how many fragments are short, and leaves those bytes 0. */
dugg_answer dugg_plan(dugg_site site, uint8_t *table, size_t len);

/* Searches for a plan of the site, with at most `limit` tries. One try is one open position looked at for one fragment. Done:
 * value[0] is 0 for a plan, 1 where none exists, 2 where the limit is met, and value[1] the tries made. A plan is 1s and
 * 0s in the first cells * slots * channels bytes of the table; on 1 and 2 they are 0. The table needs that many bytes
 * (refusal 4). Refusal 25, more than 64 open positions or 24 fragments in all, writes nothing. A larger limit never alters
 * a plan, a "none exists" or its tries. */
dugg_answer dugg_search(dugg_site site, uint64_t limit, uint8_t *table, size_t len);

/* Finds a plan of the site by any proved way, or says why there is none: the planner; then the heaviest clash, where its
 * load is above the open positions; then the cells in new numbers, as dugg_renumber finds them; then the search, with at
 * most `limit` tries. Done: value[0] is 0 for a plan, 1 where none exists, 2 where it is not known; value[1] says by which
 * way: 0 the planner, 1 a set of cells that is over, 2 in new numbers, 3 the search; value[2] is the set as a word, or the
 * tries of the search (0 where it is too large for it), or 0. The planner's plan is as dugg_plan writes it, any other is 1s
 * and 0s, in the first cells * slots * channels bytes of the table; on 1 and 2 they are 0. The table needs that many bytes
 * (refusal 4). A larger limit never alters a plan or a "none exists". */
dugg_answer dugg_find(dugg_site site, uint64_t limit, uint8_t *table, size_t len);

/* Are these cells over: do they clash with one another, and are their loads above the open positions? Bit i - 1 of `cells`
 * is for cell i. Done: value[0] is 1 where they are, and then no plan exists, else 0; value[1] is their load. Cells that the
 * site does not have are not over, and add no load. */
dugg_answer dugg_over_full(dugg_site site, uint32_t cells);

/* Is the finished table valid for the site? A byte that is 1 means transmit, any other is silence. Refusal 22 comes first
 * and gives the lowest blocked position where a cell transmits, and the lowest such cell; refusal 6 the lowest position
 * with a clash and the two cells; refusal 7 the lowest cell with a wrong count, and its count. */
dugg_answer dugg_check(dugg_site site, const uint8_t *table, size_t len);

/* A table as words: one for each position, slots * channels of them, position after position. Bit i-1 of a word is set
 * when cell i transmits there. Bits past the last cell are read as silence and written as 0. "count" is the number of
 * words lent; too few are refusal 4, and words past slots * channels are not written. */

/* Plans the site into words. The answer is that of dugg_plan, and the words are those of its table. Refusal 5 leaves
 * the slots * channels words 0. */
dugg_answer dugg_plan_words(dugg_site site, uint32_t *words, size_t count);

/* Are the words a valid table for the site? The answer is that of dugg_check for the bytes of the words. */
dugg_answer dugg_check_words(dugg_site site, const uint32_t *words, size_t count);

/* Writes a table as words: a byte that is 1 sets its bit, any other does not. */
dugg_answer dugg_to_words(dugg_site site, const uint8_t *table, size_t len, uint32_t *words, size_t count);

/* Writes words as a table: 1 where a cell transmits and 0 elsewhere. Bytes past cells * slots * channels are not
 * written. */
dugg_answer dugg_to_bytes(dugg_site site, const uint32_t *words, size_t count, uint8_t *table, size_t len);

/* Mends a table from another planner where it stands, and lists the changes. Cells in rising number: each keeps its
 * reservations in rising position where it is open and no earlier clashing cell stands, until its load is met; drops the
 * rest; then takes the lowest free positions, which are open, until it is met. A byte that is added becomes 1, one that is dropped 0; every other
 * byte stays. The changes stand by cell, then position, four numbers each: cell, position, what it was, what it is (1
 * reservation, 0 silence). "count" is how many numbers the list has; what is left over after whole fours, and entries
 * past the last change, are not written. Done: how many changes. Refusal 4: the table is short; 5: the first cell
 * without room, and how many fragments are short; 13: how many changes there are, where the list has no room for them.
 * A refusal leaves table and list as they were. */
dugg_answer dugg_mend(dugg_site site, uint8_t *table, size_t len, uint16_t *changes, size_t count);

/* Changes the load of one cell on the handheld, in the record where it stands, and plans the table anew from that cell on.
 * The table must be the plan of the record as it is, byte for byte over cells * slots * channels bytes (26). Afterwards record
 * and table are those of a fresh plan, and the rows of lower cells were not written. Refusals: the record's; 2 for the cell;
 * 4; 26; these leave record and table as they were. 5: the first cell without room, and how many fragments are short; the
 * record keeps the new load, and the site's part of the table is 0, so that the next change is 26. The record does not lie in
 * the table. The call needs some 8 kilobytes of stack. */
dugg_answer dugg_change_load(dugg_site *site, uint16_t cell, uint16_t load, uint8_t *table, size_t len);

/* Numbers the cells anew, idle ones too, so that each cell's lower clashing cells clash with one another: then the load
 * test is exact, whatever the loads. The last number goes to the highest old number whose clashing cells all clash with
 * one another, then the same for those left. Done: the site in new numbers, the new number of each old one
 * (new_of_old[a-1] for cell a) and the old number of each new one, 0 past the cells. Loads and reach go with the cells,
 * everything else stays. Refusal 23: there is no such numbering. Any refusal gives the site as it came, and numbers all 0. */
dugg_renumbered dugg_renumber(dugg_site site);

/* Carries a table for the renumbered site back: "site" is the old one, and the rows of new_table, byte for byte, come to
 * stand in old_table at their old numbers. It is valid for the old site when new_table is for the renumbered one. Bytes
 * past cells * slots * channels are not written. Refusals: 23, then 4 for either table; they write nothing. */
dugg_answer dugg_carry(dugg_site site, const uint8_t *new_table, size_t new_len, uint8_t *old_table, size_t old_len);

/* What a flow needs, from its burst in fragments and its period in slots, each fragment sent twice: since version 4 a caller
 * that gives no repeats gets 2, and before it was 1. Done: its share in fragments per superframe, its queue bound in
 * fragments, its delay bound in slots. A caller that wants each fragment sent once asks dugg_share_repeated for 1. */
dugg_answer dugg_share(uint16_t slots, uint16_t burst, uint16_t period);

/* The same with each fragment sent "repeats" times, 1 to 4. The share is that many times the share of one sending; the
 * two bounds do not change with the repeats. */
dugg_answer dugg_share_repeated(uint16_t slots, uint16_t burst, uint16_t period, uint16_t repeats);

/* Which of at most 16 flows to admit on a nested site: the set of greatest total value whose shares, summed by cell,
 * pass the load test; of equals, the set with the smallest number, where flow 1 weighs 1, flow 2 weighs 2, flow 3 weighs
 * 4 and so on. The site's own loads are set aside. Done: value[0] is the set's number. Refusals: the record's 1, 24, 2,
 * 3 or 20; 18; 19; then flow by flow 2 for a cell that the site does not have, 15 and 16, each with the flow's number, from 1. A
 * flow's 2 has the same number as the record's: dugg_fault tells which it is. */
dugg_answer dugg_admit(dugg_site site, const dugg_flow *flows, size_t count);

/* The same on top of the loads that the site has, as on a running site: the shares of the set and the site's own loads, summed
 * by cell, pass the load test. Refusals: dugg_admit's, and after 19, before the flows, 5 with the lowest cell that is over by
 * the loads alone and by how much; then no set is allowed, not even the empty one. */
dugg_answer dugg_admit_beside(dugg_site site, const dugg_flow *flows, size_t count);

/* Reads a site file. Nothing is read past "len" bytes, and no site file has more than 2,328. */
dugg_edited dugg_read_site(const uint8_t *bytes, size_t len);

/* Writes a site file. Where something is blocked it ends with a record of kind 6; software that is older than version 2
 * refuses such a file with 12. Under rule 2 it begins with a record of kind 5, which has the rule; software that is older
 * than version 3 refuses such a file with 9. A rule 1 site without blocked positions has the file that it had before. Done: value[0] is the
 * number of bytes written; bytes past those are not touched. */
dugg_answer dugg_write_site(dugg_site site, uint8_t *out, size_t len);

/* Reads a plan file into the table, 1 for reserved and 0 for the rest. A refused file writes nothing. A plan file has no
 * rule: one that begins with kind 5 is refused with 9. */
dugg_plan_read dugg_read_plan(const uint8_t *bytes, size_t len, uint8_t *table, size_t table_len);

/* Writes the reservations of a site's table as a plan file, without judging them. Done: value[0] is the number of
 * bytes written, at most 8,206; bytes past those are not touched. */
dugg_answer dugg_write_plan(dugg_site site, const uint8_t *table, size_t table_len, uint8_t *out, size_t len);

/* Reads a range sheet: a first line "cell,load,1,2,.." with the cell numbers, then a line for each cell with its number,
 * its load, and for each cell a mark, 1 if it reaches that cell and 0 if not. Every line ends in CR LF. The slots, the
 * channels, the blocked positions and the rule of the site come beside it. Refusals: 17, then 1, then 24, then 3 for a cell
 * that marks itself, then 20. */
dugg_edited dugg_read_sheet(const uint8_t *bytes, size_t len, uint16_t slots, uint16_t channels, dugg_blocked blocked, uint16_t rule);

/* Writes the range sheet of a site; the blocked positions and the rule are not in it. Done: value[0] is the number of bytes
 * written, at most 2,457; bytes past those are not touched. */
dugg_answer dugg_write_sheet(dugg_site site, uint8_t *out, size_t len);

/* Makes a sheet as spreadsheets write it into the form that dugg_read_sheet asks: LF to CR LF, the byte order mark dropped,
 * semicolons or tabs to commas, quotes and blanks around a field dropped, an empty mark to 0 and an x to 1, the last line's
 * end added. A sheet in that form is left as it is. Done: value[0] is the size of the tidied sheet; bytes past it are not
 * touched. Refusal 17 gives the first line that can't be tidied, then 13 the bytes needed; no refusal writes. */
dugg_answer dugg_tidy(const uint8_t *sheet, size_t len, uint8_t *out, size_t out_len);

/* The three calls below write text: English, plain ASCII, every line ended by LF, no 0 at the end. Done: value[0] is how many
 * bytes were written; bytes past those are not touched. Refusal 13 gives the bytes needed, and writes nothing. */

/* The answer of a call in words, as docs/NUMBERS.md has them; "call" is its number in the enum dugg_call. An answer that the
 * call never gives has words too, and so has any other number. 512 bytes are enough for every answer. */
dugg_answer dugg_words(dugg_answer answer, uint64_t call, uint8_t *out, size_t len);

/* What the command "duggfrask why" prints of a site, all of it. Refusals: the record's 1, 24, 2, 3 or 20; then 13. It searches
 * with at most 1,000,000 tries, and needs some 200 kilobytes of stack. 65,536 bytes are enough for nearly every site. */
dugg_answer dugg_why(dugg_site site, uint8_t *out, size_t len);

/* What the command "duggfrask list" prints of a site file: a file that is refused is listed too, in one line, and the answer is
 * done. The only refusal is 13: the listing of a site with many reservations has up to some 370,000 bytes. It needs some 100
 * kilobytes of stack. */
dugg_answer dugg_list(const uint8_t *bytes, size_t len, uint8_t *out, size_t out_len);

/* The version of the library that is there at run time. Done: value[0] is its DUGG_VERSION. */
dugg_answer dugg_version(void);

#ifdef __cplusplus
}
#endif

#endif
