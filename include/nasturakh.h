/* Nasturakh: search files of fixed records in order of their keys, and sequential files. The functions of the archive libcapi.a, for C and
 * C++.
 *
 * WORDS. A word is a number 0..262143 in a uint32_t. A record is WPR words, its key the first K. Keys compare word by word, the first
 * word heaviest. The key whose words are all 262143 is reserved: it ends the file.
 *
 * SLICES. Each slice travels as a pointer and a length, in words (marks: in bytes). The caller owns all of them; the library keeps no
 * pointer, allocates nothing and has no state. No two slices of one call may overlap. No pointer may be null, also where a length is 0.
 *   session    73 words or 74, see below
 *   file       exactly nasturakh_file_words(..) words
 *   buffer     exactly WPB words; belongs to the session: hand in what the last call left
 *   workspace  exactly WPR words: the record, or for SEEK and DLETE the key in its first K words (the others are not read)
 *   marks      exactly N bytes
 *   plan       exactly 8 words, see nasturakh_most_transfers
 *   tray       exactly 1 + count * WPR words, see nasturakh_nsert_tray; told there: exactly 2 numbers of 64 bits
 *   report     3 * N * (1 + D) words or more, see nasturakh_salvage; told there: exactly 2 numbers of 64 bits
 *   row        exactly 7 words, see nasturakh_put; file and workspace there have lengths of their own
 * A slice whose length is wrong is refused by 020007; so no length reads or writes outside what it says.
 *
 * SESSION. 73 words of the caller: set 0..5 to the parameters and 6..72 to 0, then hand in to each call what the last one left. A session
 * of 74 words has one parameter more, word 73, the block form; 73 words mean the first form. A session slice of any other length is refused.
 *
 * BLOCK FORMS. In the first form, 1, word 0 of a block is its count, and nothing in a block says what it is. In the second, 2, word 0 is 4096
 * plus the count of an index block, 8192 plus the count of a detail block, and 12288 in a free block, whose link then is its word 1. A block
 * never used is 0 in both. Nothing else differs. No file is good in both, and nasturakh_turn makes one of the other.
 *
 * THREADS. Any thread may call, and any number at once, as long as no two calls share a slice: one call at a time on one session.
 *
 * ANSWERS. Every function but nasturakh_view, the three nasturakh_most_.., nasturakh_nsert_tray and nasturakh_salvage returns transfers *
 * 2^32 + number; those two return the number alone. Numbers are octal; the first that applies is given.
 */
#ifndef NASTURAKH_H
#define NASTURAKH_H

#include <stddef.h>
#include <stdint.h>

#ifdef __cplusplus
extern "C" {
#endif

/* The words of a session. */
enum {
  NASTURAKH_WPB = 0,      /* words per block: even, 6..4096 */
  NASTURAKH_WPR = 1,      /* words per record: K or more; a block holds D = (WPB-1)/WPR of them, at least 2 */
  NASTURAKH_K = 2,        /* words per key: 1..63; an index block holds I = (WPB-1)/(K+1) entries, at least 2 */
  NASTURAKH_SPACE = 3,    /* places that XTEND leaves free in a block: 0..D-2 and 0..I-2 */
  NASTURAKH_CONTROL = 4,  /* most index blocks in use: 1..16383 */
  NASTURAKH_N = 5,        /* blocks: 2..262142 */
  NASTURAKH_OPEN = 6,     /* 0 closed, 1 open */
  NASTURAKH_CURRENT = 7,  /* the block in the buffer, 0 none */
  NASTURAKH_FLAG = 8,     /* 1: the buffer is to be written before another block is read */
  NASTURAKH_PLACED = 9,   /* 1: there is a position */
  NASTURAKH_POSITION = 10, /* the position, a key in the first K of 63 words */
  NASTURAKH_SESSION = 73, /* words in all, in the first block form */
  NASTURAKH_FORM = 73,    /* the block form, one more parameter: 1 or 2 */
  NASTURAKH_SESSION_FORM = 74 /* words in all, with it */
};

/* The numbers returned, by the names that docs/NUMBERS.md gives them. */
#define NASTURAKH_DONE 000000u            /* done */
#define NASTURAKH_NOT_FOUND 000001u       /* no record has the key; NSERT: one has it already */
#define NASTURAKH_OUT_OF_SEQUENCE 000005u /* XTEND: the file has an ordinary record whose key is not below the key */
#define NASTURAKH_WRONG_SIZE 020007u      /* a parameter or a slice's length is wrong, or session word 6, 8 or 9 is above 1; all unchanged */
#define NASTURAKH_READING_ONLY 020010u    /* NSERT, DLETE, UPDAT, XTEND of the reading set; all unchanged */
#define NASTURAKH_WRONG_LENGTH 020012u    /* PUT, GET: the record is of length 0, or larger than the data area; all unchanged */
#define NASTURAKH_ALREADY_OPEN 020006u    /* OPEN, COPY or TURN of an open session; all unchanged */
#define NASTURAKH_IS_CLOSED 020005u       /* another call on a closed session; all unchanged */
#define NASTURAKH_WRONG_KEY 030001u       /* a workspace word above 262143, or the reserved key; all unchanged */
#define NASTURAKH_AT_END 030002u          /* ADV: no record is left; the end record is in the workspace, the position stays. GET: none is
                                           * left, or no block; all unchanged */
#define NASTURAKH_NOT_ALLOWED 030007u     /* ROMANISE, HOLD, FREE: the name is in another state; its record is in the workspace */
#define NASTURAKH_NONE_FREE 070001u       /* stored; but the record's block is now full and no block is free */
#define NASTURAKH_NO_ROOM 070002u         /* NSERT, XTEND: not stored, too few blocks or sections are free. PUT: no block is left */
#define NASTURAKH_BAD_FILE 070003u        /* OPEN, COPY, TURN: not a good file in the session's block form; else a bad number in file or buffer, in
                                           * the second form a wrong kind too; all unchanged but the marks */

/* The two parts of an answer. */
static inline uint32_t nasturakh_number(uint64_t answer) { return (uint32_t)answer; }
static inline uint32_t nasturakh_transfers(uint64_t answer) { return (uint32_t)(answer >> 32); }

/* The words of a file with the session's parameters: the master, made even, then N blocks. */
static inline size_t nasturakh_file_words(const uint32_t *session) {
  size_t master = 3 + (size_t)session[NASTURAKH_CONTROL] * ((size_t)session[NASTURAKH_K] + 1);
  return master + master % 2 + (size_t)session[NASTURAKH_N] * session[NASTURAKH_WPB];
}

/* CREATE: writes a new file with no records, every word of it. Only the parameters of the session are used, and it is left as it is.
 * 0 or 020007. */
uint64_t nasturakh_create(const uint32_t *session, size_t session_words, uint32_t *file, size_t file_words);

/* OPEN: inspects the whole file. Answering 0 it leaves the session open with no position, and marks each block: 1 in use, 2 on the
 * free chain, 0 never used. Answering 070003 it leaves all marks 0. Else 020007 or 020006. */
uint64_t nasturakh_open(uint32_t *session, size_t session_words, const uint32_t *file, size_t file_words,
                        const uint32_t *buffer, size_t buffer_words, uint8_t *marks, size_t marks_bytes);

/* CLOSE: writes the buffer to its block if need be, and closes. Without it records that are only in the buffer are lost, never the
 * file. 0, 020007, 020005 or 070003. */
uint64_t nasturakh_close(uint32_t *session, size_t session_words, uint32_t *file, size_t file_words,
                         const uint32_t *buffer, size_t buffer_words);

/* SEEK: the record with the workspace's key is put into the workspace. 0, 1, or a refusal. */
uint64_t nasturakh_seek(uint32_t *session, size_t session_words, uint32_t *file, size_t file_words, uint32_t *buffer,
                        size_t buffer_words, uint32_t *workspace, size_t workspace_words);

/* ADV: the record with the least key above the position (the first one, without a position) is put into the workspace. 0, 030002 at
 * the end, or a refusal. */
uint64_t nasturakh_adv(uint32_t *session, size_t session_words, uint32_t *file, size_t file_words, uint32_t *buffer,
                       size_t buffer_words, uint32_t *workspace, size_t workspace_words);

/* NSERT: the workspace's record is put in, unless its key is there. 0, 1, 070001, 070002, or a refusal. */
uint64_t nasturakh_nsert(uint32_t *session, size_t session_words, uint32_t *file, size_t file_words, uint32_t *buffer,
                         size_t buffer_words, const uint32_t *workspace, size_t workspace_words);

/* A tray: NSERT of each of its records in turn, up to the first answer that is neither 0 nor 070001; what was stored stays. Word 0 of the
 * tray says how many records follow, each of WPR words, in any order. Returns the number of the last NSERT, 0 where there is no record;
 * 070001 on the way is not told if a later record is stored with 0. told[NASTURAKH_TOLD_TRANSFERS] is the transfers of all its NSERTs,
 * told[NASTURAKH_TOLD_STORED] how many were stored. File, buffer and session are as the single NSERTs would leave them, and each NSERT
 * made counts as one in a plan. 020007, also where the tray's length is not 1 + word 0 * WPR; 020005; both with told 0 and 0. Where the
 * session slice is none, or told has not 2 numbers, 020007 and told is left as it is.
 *
 * Forty names in one call:
 *
 *   uint32_t tray[1 + 40 * 3];            // WPR is 3
 *   uint64_t told[NASTURAKH_TOLD];
 *   tray[0] = 40;
 *   for (size_t i = 0; i < 40; i++)
 *     memcpy(tray + 1 + i * 3, names[i], 3 * sizeof(uint32_t));
 *   uint64_t number = nasturakh_nsert_tray(session, NASTURAKH_SESSION, file, file_words, buffer, buffer_words, tray, 1 + 40 * 3, told,
 *                                          NASTURAKH_TOLD);
 *   if (number != NASTURAKH_DONE && number != NASTURAKH_NONE_FREE)
 *     report(names[told[NASTURAKH_TOLD_STORED]], number);   // the one that stopped it; those behind it were not tried
 */
enum {
  NASTURAKH_TOLD_TRANSFERS = 0,
  NASTURAKH_TOLD_STORED = 1,
  NASTURAKH_TOLD = 2 /* numbers in all */
};
uint64_t nasturakh_nsert_tray(uint32_t *session, size_t session_words, uint32_t *file, size_t file_words, uint32_t *buffer,
                              size_t buffer_words, const uint32_t *tray, size_t tray_words, uint64_t *told, size_t told_words);

/* DLETE: the record with the workspace's key is taken out. 0, 1, or a refusal. */
uint64_t nasturakh_dlete(uint32_t *session, size_t session_words, uint32_t *file, size_t file_words, uint32_t *buffer,
                         size_t buffer_words, const uint32_t *workspace, size_t workspace_words);

/* UPDAT: the record with the workspace's key is replaced by the workspace. 0, 1, or a refusal. */
uint64_t nasturakh_updat(uint32_t *session, size_t session_words, uint32_t *file, size_t file_words, uint32_t *buffer,
                         size_t buffer_words, const uint32_t *workspace, size_t workspace_words);

/* XTEND: the workspace's record is put in behind all others. 0, 5, 070001, 070002, or a refusal. */
uint64_t nasturakh_xtend(uint32_t *session, size_t session_words, uint32_t *file, size_t file_words, uint32_t *buffer,
                         size_t buffer_words, const uint32_t *workspace, size_t workspace_words);

/* THE NAME REGISTER, above the calls: a record's key is a source spelling, its first data word the state, the rest a spelling of WPR-K-1
 * words. While only these functions, OPEN, CLOSE, SEEK, ADV and VIEW touch the file, no sequence of them changes the spelling of a name that is
 * romanised or held, and no name is romanised twice. Each is lent the name in the first K words of the workspace and reads no other word
 * of it. Refusals: 020007, also where WPR is K; 020005; 030001, all unchanged; then the numbers of the call beneath pass through. The names
 * are listed by nasturakh_adv. */
enum {
  NASTURAKH_RAW = 0,       /* entered; the spelling is 0 */
  NASTURAKH_ROMANISED = 1, /* the spelling was given */
  NASTURAKH_HELD = 2       /* romanised and held back */
};

/* ENTER: a raw name is put in, by NSERT. Past 030001 the data words of the workspace are 0, whatever is answered. 0, 1 (the name is
 * there), 070001, 070002, or a refusal. */
uint64_t nasturakh_enter(uint32_t *session, size_t session_words, uint32_t *file, size_t file_words, uint32_t *buffer,
                         size_t buffer_words, uint32_t *workspace, size_t workspace_words);

/* ASK: the name's record is put into the workspace, by SEEK. 0, 1, or a refusal. */
uint64_t nasturakh_ask(uint32_t *session, size_t session_words, uint32_t *file, size_t file_words, uint32_t *buffer,
                       size_t buffer_words, uint32_t *workspace, size_t workspace_words);

/* ROMANISE: a raw name becomes romanised with the spelling, exactly WPR-K-1 words (none: any pointer that is not null). 0, 1, 030007 (the
 * name is not raw), or a refusal; 030001 also for a word of the spelling above 262143. */
uint64_t nasturakh_romanise(uint32_t *session, size_t session_words, uint32_t *file, size_t file_words, uint32_t *buffer,
                            size_t buffer_words, uint32_t *workspace, size_t workspace_words, const uint32_t *spelling,
                            size_t spelling_words);

/* HOLD and FREE: a romanised name becomes held, a held one romanised; the spelling stays. 0, 1, 030007 (the name is in another state), or
 * a refusal. */
uint64_t nasturakh_hold(uint32_t *session, size_t session_words, uint32_t *file, size_t file_words, uint32_t *buffer,
                        size_t buffer_words, uint32_t *workspace, size_t workspace_words);
uint64_t nasturakh_free_name(uint32_t *session, size_t session_words, uint32_t *file, size_t file_words, uint32_t *buffer,
                             size_t buffer_words, uint32_t *workspace, size_t workspace_words);

/* VIEW: where the current text of a block is, WPB words. Below NASTURAKH_IN_FILE: nowhere (0: a closed session, wrong sizes, a block
 * outside 1..N; 020007: a session slice of another length, or its word 6, 8 or 9 above 1). NASTURAKH_IN_BUFFER: it is the buffer. Else
 * NASTURAKH_IN_FILE plus the word offset in the file. */
#define NASTURAKH_IN_FILE ((uint64_t)1 << 32)
#define NASTURAKH_IN_BUFFER ((uint64_t)1 << 33)
uint64_t nasturakh_view(const uint32_t *session, size_t session_words, const uint32_t *file, size_t file_words,
                        const uint32_t *buffer, size_t buffer_words, size_t block);

/* SALVAGE: builds a fresh file of the records of a broken copy, and reports what was not carried. Of the session only the parameters are
 * used: they are those of the copy and of the fresh file. The copy is read as the second block form marks blocks, whatever the session's
 * form; its master and its index blocks are not believed, and it is only read. The blocks are gone through in number order. From each
 * that, tested in this order, (1) has word 0 in 8192..12287, (2) has a count of 1..D, (3) has no word above 262143 in a record, (4) has
 * strictly ascending keys, the records are put into the fresh file by NSERT, those with the reserved key left out; a block that misses a
 * test is passed over. The fresh file is of the session's form and closed at the end: open it with any closed session of these
 * parameters. The buffer is lent for the work.
 *
 * The report gets a line of three words for each block passed over, (block, 0, the test missed: 1..4), and for each record not carried,
 * (block, place from 1 on, 5 where the key was carried before or 6 where there was no room), in the order of the walk; its words behind
 * the lines stay. To give a crowded copy more room, hand it in with more blocks of zeros, or more words of the master, and a larger N or
 * CONTROL. told[NASTURAKH_SALVAGE_TRANSFERS] is the transfers of the NSERTs and of the CLOSE, told[NASTURAKH_SALVAGE_LINES] how many
 * lines there are. Returns the number: 0, or 020007, for a wrong parameter or length, with all words as they were and told 0 and 0;
 * where the session slice is none, or told has not 2 numbers, told is left as it is too. */
enum {
  NASTURAKH_SALVAGE_TRANSFERS = 0,
  NASTURAKH_SALVAGE_LINES = 1,
  NASTURAKH_LINE = 3 /* words of a line: block, place, reason */
};
uint64_t nasturakh_salvage(const uint32_t *session, size_t session_words, const uint32_t *copy, size_t copy_words, uint32_t *fresh,
                           size_t fresh_words, uint32_t *buffer, size_t buffer_words, uint32_t *report, size_t report_words,
                           uint64_t *told, size_t told_words);

/* COPY: writes the session's file, which must be closed and good, into a second one whose parameters are the session's but for CONTROL,
 * every word of it: the same records in the same blocks, the same free chain, and 0 where the master is not in use. So a file gets more
 * sections, or fewer. The second file has the nasturakh_file_words(..) of a session with the new CONTROL, and is then used with such a
 * session; this session and its file stay as they are. 0, with OPEN's marks; 020007, also where the new CONTROL is not 1..16383 or is below
 * word 0 of the file, its sections in use; 020006; or 070003 with all marks 0. Each refusal leaves the second file. No transfers. */
uint64_t nasturakh_copy(const uint32_t *session, size_t session_words, const uint32_t *file, size_t file_words, uint32_t *second,
                        size_t second_words, size_t control, uint8_t *marks, size_t marks_bytes);

/* TURN: makes of the session's file, which must be closed and good, the same file in the other block form, in its place, and writes that
 * form to word 73 of the session, which must have 74 words; no other word of the session changes. The same records in the same blocks, the
 * same free chain; turned again it is the file that it was, word for word. 0, with OPEN's marks; 020007, also for a session of 73 words;
 * 020006; or 070003 with all marks 0. Each refusal leaves session and file. No transfers. */
uint64_t nasturakh_turn(uint32_t *session, size_t session_words, uint32_t *file, size_t file_words, uint8_t *marks, size_t marks_bytes);

/* The words of a plan: the most calls of each kind, refused ones counted, and the most records that NSERT and XTEND are to put in
 * (answers 0 and 070001). OPEN and VIEW cost no transfer. */
enum {
  NASTURAKH_PLAN_SEEK = 0,
  NASTURAKH_PLAN_UPDAT = 1,
  NASTURAKH_PLAN_NSERT = 2,
  NASTURAKH_PLAN_ADV = 3,
  NASTURAKH_PLAN_DLETE = 4,
  NASTURAKH_PLAN_XTEND = 5,
  NASTURAKH_PLAN_CLOSE = 6,
  NASTURAKH_PLAN_RECORDS = 7,
  NASTURAKH_PLAN = 8 /* words in all */
};

/* The most transfers that a session can make which keeps to the plan, whatever its keys and the order of its calls: from a CREATE and
 * then an OPEN that both answer 0, with this session's parameters, each call given what the last one left, closed and opened again or
 * not. A plain number, not transfers * 2^32 + number. NASTURAKH_NO_PLAN, which no plan can cost: a session slice of another length, its
 * word 6, 8 or 9 above 1, a parameter out of range, or a plan of another length. Nothing is written. */
#define NASTURAKH_NO_PLAN UINT64_MAX
uint64_t nasturakh_most_transfers(const uint32_t *session, size_t session_words, const uint32_t *plan, size_t plan_words);

/* The space of so many names that NSERT puts in, in any order: the most blocks that they take, detail and index blocks together, and the
 * most sections. From a CREATE and then an OPEN that both answer 0, with this session's WPB, WPR and K, as long as no DLETE and no XTEND is
 * accepted, no more are in use; and with N and CONTROL no less, no NSERT answers 070002 before so many were accepted. The session's own N
 * and CONTROL must be in range (2 and 1 will do), and are not looked at else. Plain numbers, not transfers * 2^32 + number.
 * NASTURAKH_NO_PLAN, which no number of names takes: a session slice of another length, its word 6, 8 or 9 above 1, or a parameter out of
 * range. Nothing is written. */
uint64_t nasturakh_most_blocks(const uint32_t *session, size_t session_words, uint32_t names);
uint64_t nasturakh_most_sections(const uint32_t *session, size_t session_words, uint32_t names);

/* SEQUENTIAL FILES, for lists as they are delivered. A file is whole blocks of WPB words, without a master; a block is its leader words,
 * which are the caller's, and then the data area of WPB - LEADERS words. Fixed records stand one behind the other, as many whole ones as
 * the data area holds. A variable record begins with its length in words, that word counted, and a zero word stands behind it unless it
 * ends with the block. Words are any 32-bit numbers here. There is no session: layout, place and count are a row of 7 words, which the
 * caller sets once (a new list: BLOCK, AT and, to PUT, LEFT 0; to be read: BLOCK and AT 0, LEFT the number put) and then hands in as the
 * last call left it. */
enum {
  NASTURAKH_ROW_WPB = 0,     /* words per block: even, 6..4096 */
  NASTURAKH_ROW_LEADERS = 1, /* leader words of a block: 0..63, fewer than WPB */
  NASTURAKH_ROW_KIND = 2,    /* 0 fixed, 1 variable */
  NASTURAKH_ROW_WPR = 3,     /* words per fixed record; not looked at for variable ones */
  NASTURAKH_ROW_BLOCK = 4,   /* the place: a block, counted from 0 */
  NASTURAKH_ROW_AT = 5,      /* and a word of its data area, counted from 0 */
  NASTURAKH_ROW_LEFT = 6,    /* GET: how many of those put are still to be read; PUT does not look at it */
  NASTURAKH_ROW = 7          /* words in all */
};

/* PUT: the record in the workspace is written at the place, or at the start of the next block where it has no room there, and the place
 * behind it is left in the row. The workspace has exactly WPR words, or for variable records exactly those of the data area, the record
 * in its first ones. 0; 020007 (row, file or workspace wrong, or more than 2^32 - 1 blocks), 020012 or 070002, all unchanged. No
 * transfers are counted. */
uint64_t nasturakh_put(uint32_t *row, size_t row_words, uint32_t *file, size_t file_words, const uint32_t *workspace,
                       size_t workspace_words);

/* GET: the record at the place, or the first of the next block where none is left in this one, is put into the first words of the
 * workspace; the place behind it and one less LEFT are left in the row. 0; 020007, 020012, or 030002 where none is left, all
 * unchanged. */
uint64_t nasturakh_get(uint32_t *row, size_t row_words, const uint32_t *file, size_t file_words, uint32_t *workspace,
                       size_t workspace_words);

/* THE READING SET, for a machine that carries a finished list and alters nothing. Its nine functions are in an archive of their own,
 * libcreading.a, which has no altering code; a program may link both. The session is the same words with CONTROL 1; a write flag (word 8)
 * other than 0 answers 020007, as CONTROL other than 1 does, in each of them. File and buffer are lent as in the full set, but the file is
 * only read, so it may lie in memory that cannot be written. SEEK costs 0 or 2 transfers, ADV 0, 2 or 3, the others none.
 *
 * A finished list is a good file with no free chain whose index block is 1 and whose detail blocks are 2, 3, .. in the order of their keys,
 * each but the last with FD = D - SPACE records. XTEND from CREATE makes one; nasturakh_copy brings a file of one section to CONTROL 1. */

/* OPEN: 0 and marks as nasturakh_open's for a finished list; 070003 and marks 0 for any other file. Else 020007 or 020006. */
uint64_t nasturakh_reading_open(uint32_t *session, size_t session_words, const uint32_t *file, size_t file_words,
                                const uint32_t *buffer, size_t buffer_words, uint8_t *marks, size_t marks_bytes);

/* CLOSE: 0, 020007 or 020005. There is nothing to write. */
uint64_t nasturakh_reading_close(uint32_t *session, size_t session_words, const uint32_t *file, size_t file_words,
                                 const uint32_t *buffer, size_t buffer_words);

/* SEEK and ADV: as nasturakh_seek and nasturakh_adv. */
uint64_t nasturakh_reading_seek(uint32_t *session, size_t session_words, const uint32_t *file, size_t file_words, uint32_t *buffer,
                                size_t buffer_words, uint32_t *workspace, size_t workspace_words);
uint64_t nasturakh_reading_adv(uint32_t *session, size_t session_words, const uint32_t *file, size_t file_words, uint32_t *buffer,
                               size_t buffer_words, uint32_t *workspace, size_t workspace_words);

/* VIEW: as nasturakh_view; an empty part, 0, where CONTROL is not 1. */
uint64_t nasturakh_reading_view(const uint32_t *session, size_t session_words, const uint32_t *file, size_t file_words,
                                const uint32_t *buffer, size_t buffer_words, size_t block);

/* NSERT, DLETE, UPDAT, XTEND: 020007, 020005, else 020010, whatever the workspace has; all unchanged. */
uint64_t nasturakh_reading_nsert(uint32_t *session, size_t session_words, const uint32_t *file, size_t file_words,
                                 const uint32_t *buffer, size_t buffer_words, const uint32_t *workspace, size_t workspace_words);
uint64_t nasturakh_reading_dlete(uint32_t *session, size_t session_words, const uint32_t *file, size_t file_words,
                                 const uint32_t *buffer, size_t buffer_words, const uint32_t *workspace, size_t workspace_words);
uint64_t nasturakh_reading_updat(uint32_t *session, size_t session_words, const uint32_t *file, size_t file_words,
                                 const uint32_t *buffer, size_t buffer_words, const uint32_t *workspace, size_t workspace_words);
uint64_t nasturakh_reading_xtend(uint32_t *session, size_t session_words, const uint32_t *file, size_t file_words,
                                 const uint32_t *buffer, size_t buffer_words, const uint32_t *workspace, size_t workspace_words);

#ifdef __cplusplus
}
#endif

#endif
