/*
 * weightrose.h - asset concentration charge of a life company's fund (LPS 117)
 *
 * Weightrose turns a schedule of limits and a book of assets, both bytes, into a report of the
 * asset concentration charge, or answers with one refusal.
 *
 * A book of the first version can be turned into one of the second, which names desks, and the
 * desks can be billed for what the charge costs. Dealers can ask how much more may be bought before
 * the charge rises. Through the day assets can be added to a book where it lies and taken away from
 * it, with a new report after each such movement.
 *
 * All functions are plain computations over the bytes handed to them: they allocate nothing,
 * read and write no file, keep nothing between calls and share nothing between threads, so any
 * number of threads may call them at once, each with buffers of its own. A call needs at most
 * 256 KB of stack. No input, however damaged, makes a call fail in any other way than by a
 * refusal.
 */
#ifndef WEIGHTROSE_H
#define WEIGHTROSE_H

#include <stddef.h>
#include <stdint.h>

#ifdef __cplusplus
extern "C" {
#endif

/* ========================================================================== */
/*                                  Version                                   */
/* ========================================================================== */

/* The version that this header is of: as three numbers, as one that rises with each release, and in
 * words. The second number rises with each landing that a host can tell. Entries have been added and
 * none taken away or declared otherwise; what they write has changed twice: 0.8.0 puts lines whose
 * limits print alike in another order, with other excesses, and 0.9.0 covers several treaties of one
 * reinsurer from one half. */
#define WEIGHTROSE_VERSION_MAJOR 0
#define WEIGHTROSE_VERSION_MINOR 11
#define WEIGHTROSE_VERSION_PATCH 0
#define WEIGHTROSE_VERSION_NUMBER \
	(WEIGHTROSE_VERSION_MAJOR * 65536 + WEIGHTROSE_VERSION_MINOR * 256 + WEIGHTROSE_VERSION_PATCH)
#define WEIGHTROSE_VERSION "0.11.0"

/* The versions of schedules and of books that the library of this header takes: bit n is set for
 * version n. */
#define WEIGHTROSE_SCHEDULES_TAKEN (1 << 1 | 1 << 2)
#define WEIGHTROSE_BOOKS_TAKEN (1 << 1 | 1 << 2)

/* ========================================================================== */
/*                                   Sizes                                    */
/* ========================================================================== */

/* Bytes of a schedule: a header of 10, and 8 rows of 14. */
#define WEIGHTROSE_SCHEDULE_SIZE 122
#define WEIGHTROSE_SCHEDULE_HEADER_SIZE 10
#define WEIGHTROSE_SCHEDULE_ROWS 8
#define WEIGHTROSE_SCHEDULE_ROW_SIZE 14

/* The versions of a schedule, by the unit of its rates, and the most that a rate of each may be. */
#define WEIGHTROSE_SCHEDULE_PER_MILLE 1
#define WEIGHTROSE_SCHEDULE_TEN_THOUSANDTHS 2
#define WEIGHTROSE_MOST_RATE_PER_MILLE 1500
#define WEIGHTROSE_MOST_RATE_TEN_THOUSANDTHS 15000

/* Bytes of a book's header and of its records. A book is a header, then counterparties, then
 * assets, then mitigants. */
#define WEIGHTROSE_BOOK_HEADER_SIZE 40
#define WEIGHTROSE_COUNTERPARTY_SIZE 4
#define WEIGHTROSE_ASSET_SIZE 48
#define WEIGHTROSE_MITIGANT_SIZE 12

/* The most records of each sort in a book, and the most bytes of a book: a buffer of that size is
 * never too short for the book of a movement. */
#define WEIGHTROSE_MOST_COUNTERPARTIES 500
#define WEIGHTROSE_MOST_ASSETS 900
#define WEIGHTROSE_MOST_MITIGANTS 1500
#define WEIGHTROSE_MOST_BOOK_SIZE 63240

/* The most that any one amount of a schedule or a book may be, in cents. */
#define WEIGHTROSE_MOST_AMOUNT INT64_C(10000000000000)

/* Bytes of a report's header and of each of its lines, and the most bytes of a report: a buffer
 * of that size is never too short. */
#define WEIGHTROSE_REPORT_HEADER_SIZE 72
#define WEIGHTROSE_REPORT_LINE_SIZE 40
#define WEIGHTROSE_MOST_REPORT_SIZE 96072

/* The desks, 0 to 255, and the bytes of their bills: eight for each, always all of them. */
#define WEIGHTROSE_DESKS 256
#define WEIGHTROSE_BILL_SIZE 8
#define WEIGHTROSE_BILLS_SIZE 2048

/* The most that a cost rate may be, in ten-thousandths. */
#define WEIGHTROSE_MOST_COST_RATE 1000

/* Bytes of a dealer's question and of its answer, the most questions of a list, and the most bytes
 * of their answers: a buffer of that size is never too short. */
#define WEIGHTROSE_QUESTION_SIZE 3
#define WEIGHTROSE_ANSWER_SIZE 8
#define WEIGHTROSE_MOST_QUESTIONS 200
#define WEIGHTROSE_MOST_ANSWERS_SIZE 1600

/* ========================================================================== */
/*                                  Layouts                                   */
/* ========================================================================== */

/*
 * Numbers are little-endian: u16 and u64 unsigned, i64 in two's complement. Amounts are whole
 * cents, each at most WEIGHTROSE_MOST_AMOUNT. Bytes count from 0, the places of records from 1.
 * Every bit and byte that is not named below must be 0.
 *
 * Schedule
 *    0  "ACL" and a zero byte
 *    4  u16  version, 1 or 2
 *    6  u16  percent of a limit kept after the first downgrade step, at most 100
 *    8  u16  the same after the second
 *   10       rows c, d, e, f, g, h, i of Attachment A, paragraph 1, and z for its paragraph 3:
 *            0  u16  VAF rate: version 1 per mille, at most 1,500; version 2 in ten-thousandths,
 *                    at most 15,000
 *            2  u16  second VAF rate, likewise
 *            4  u16  capital base rate, likewise
 *            6  u64  fixed amount
 *
 * Book
 *    0  "ACB" and a zero byte
 *    4  u16  version, 1 or 2
 *    6  u16  counterparties
 *    8  u16  assets
 *   10  u16  mitigants
 *   12       1 for a specialist fund (paragraph 46), else 0
 *   13       three zero bytes
 *   16  u64  total assets
 *   24  i64  capital base, from -WEIGHTROSE_MOST_AMOUNT to WEIGHTROSE_MOST_AMOUNT
 *   32  u64  assets excluded by paragraph 20(b)
 *   40       counterparties, then assets, then mitigants
 *
 * Counterparty
 *    0  u16  place of its parent, lower than its own; 0 for none
 *    2       low four bits: grade 0 to 7, 0 for none; high four bits: kind (0 other, 1 bank,
 *            2 home government, 3 provincial government, 4 registered life company)
 *    3       bit 0 related, bit 1 approved affiliate, bit 2 approved under item (e), second limb
 *
 * Asset
 *    0       kind: 1 government guaranteed, 2 life policy, 3 bank bill, guarantee or letter,
 *            4 deposit, 5 guaranteed by a province, 6 traded, 7 loan, 8 property, 9 reinsurance,
 *            10 premiums owed, 11 any other
 *    1       bit 0 linked (paragraph 24), bit 1 rises under stress (paragraph 17)
 *    2       entry class: 0 none, 1 item (e), 2 item (g), 3 a specialist fund's retrocession
 *    3       completed months since the downgrade, 255 for 255 or more; needs an entry class
 *    4  u16  counterparty
 *    6  u16  version 1: how many mitigants are its own
 *    6       version 2: how many mitigants are its own, at most 255
 *    7       version 2: its desk, 0 to 255; an asset of version 1 counts as desk 0
 *    8  u64  value
 *   16  u64  offsets; of reinsurance, netted liabilities, at most its value
 *   24  u64  deductions
 *   32  u64  insurance stress
 *   40  u64  combination stress
 *   Bit 1, entry class, months and stresses are 0 but for reinsurance.
 *
 * Mitigant, in the order of the assets
 *    0       form: 1 cash, 2 government security, 3 debt, 4 guarantee, 5 letter of credit
 *    1       bit 0 secured and held (paragraph 33), bit 1 terms of paragraph 35 or 36, bit 2 terms
 *            of paragraph 40, bit 3 terms of paragraph 42(b) to (m), bit 4 same currency
 *    2  u16  counterparty
 *    4  u64  value
 *
 * Question, at most 200 of them one behind the other in a list, in any order, any of them more than
 * once
 *    0  u16  counterparty
 *    2       kind of asset, 1 to 11 as above, but not 9
 *
 * The report's layout is below, with the names of its fields, and so are those of the bills and of
 * the answers to questions.
 */

/*
 * Versions of a schedule. The unit of its rates, with the most that one may be, is all that the
 * two versions have apart: the three rates of each of the eight rows are per mille in version 1
 * and in ten-thousandths in version 2, where 4.37 per cent is 437. A schedule is read by the
 * version that it states, whatever that of the book, and the same numbers are other limits in the
 * other version. Percents are per cent, and fixed amounts cents, in both. The three tiers of
 * specialist funds keep their 500, 330 and 170 per mille of VAF' under schedules of either
 * version. The published schedule is of version 1. A schedule of version 1 becomes one of version
 * 2 by a 2 in byte 4 and ten times each of its 24 rates, and by nothing else: under both of them
 * every book gets the same answer and the same bytes, of the report, of the bills, of what
 * questions are answered and of movements. The way back is open where ten divides each rate. The
 * cost rate of weightrose_bills() is no part of a schedule and is in ten-thousandths always.
 */

/*
 * Versions of a book. Bytes 6 and 7 of an asset are all that the two versions have apart, and a
 * book is read by the version that its header states. No report reads a desk: two books that
 * differ in desks alone get the same report, byte for byte. weightrose_bills() alone reads them.
 * weightrose_convert() turns a book of version 1 into one of version 2. A movement leaves a book of
 * either version at its version.
 */

/*
 * What mitigants cover (paragraphs 31 to 43). Those of a linked asset are not read. Those of any
 * other asset that are recognised cover it in their order, each the lesser of its value and of what
 * may still be covered; one that is not recognised covers nothing. A covered part becomes an
 * exposure to the mitigant's counterparty, the remainder stays one to the asset's own, and together
 * they are the asset's net. Recognised are cash, government securities and debt that are in the
 * same currency and secured and held or, for reinsurance, secured and held or on the terms of
 * paragraph 35 or 36, debt only of a counterparty with grade 1, 2 or 3; guarantees of a
 * counterparty that is not related and has such a grade, on the terms of paragraph 40 or, for
 * reinsurance, of such a bank on the terms of paragraph 42(b) to (m); and letters of credit for
 * reinsurance alone, as its guarantees.
 *
 * An asset may be covered up to its net. Reinsurance with a counterparty that is neither a
 * registered life company nor an approved affiliate may be covered no further than that
 * counterparty's half goes: the nets of all its reinsurance that is not linked, with mitigants or
 * without, of whatever entry class, added up, divided by two and rounded down to a cent once. A
 * half is one counterparty's, and no other of its group adds to it or draws on it. Its treaties
 * draw on it in book order. Each may be covered up to the lesser of its own net and of what those
 * before it have left of the half, and what its mitigants cover in all, not what they are worth, is
 * taken off the half. So a treaty may be covered for more than half of its own net, or whole, and
 * one behind it for nothing; one without recognised mitigants draws nothing. Linked reinsurance and
 * assets of other kinds neither add to a half nor draw on it. A treaty that is alone is covered up
 * to half of its net. Two of 101 and 99 with good letters of 101 on the first alone are covered for
 * 100, with the letters on the second alone for 99, and two of 101 with letters of 101 on each for
 * 101 and 0.
 */

/*
 * Specialist funds (paragraph 46). Byte 12 of a book states that its fund is a specialist
 * reinsurer's, and entry class 3 that an asset is the fund's retrocession to an overseas parent,
 * associated or subsidiary company that, with APRA's agreement, has been identified as an
 * appropriate retrocessionaire and had grade 1, 2 or 3 when the arrangement was entered into. Both
 * are the caller's to know; the library checks only that no other fund's book has entry class 3.
 * What mitigants leave of such an asset, if it is not linked, is in WEIGHTROSE_TIER_RETROCESSION
 * while its counterparty has grade 1, 2 or 3, whatever the counterparty's kind and flags and the
 * asset's months. With any other grade or none the months decide: 0 to 2 give the same tier, 3 to
 * 11 WEIGHTROSE_TIER_RETROCESSION_FIRST, 12 to 23 WEIGHTROSE_TIER_RETROCESSION_SECOND, and from 24
 * on it is in WEIGHTROSE_TIER_I_REINSURANCE, as reinsurance without an entry class. The limits of
 * the three tiers are 500, 330 and 170 per mille of VAF', rounded down to a cent: they are not the
 * schedule's, and neither its rows and percents nor the capital base change them. The three rank
 * among a group's tiers by their limits before rounding, as all do. Attachment A, paragraph 3, does
 * not count them; from 24 months on it counts the retrocession, as all in
 * WEIGHTROSE_TIER_I_REINSURANCE. In all else (stresses, netting, mitigants and how much they may
 * cover) a retrocession is reinsurance like any other, and byte 12 changes nothing for assets of
 * another entry class.
 */

/*
 * Movements. A book that lies at the start of a buffer lent for writing is kept current there as
 * assets come and go: weightrose_add() adds an asset, weightrose_remove() takes one away, and both
 * write the report of the book that is there then to a second buffer. The book that stands is the
 * first bytes of its buffer, as many as its counts say: 40, and 4 for each counterparty, 48 for each
 * asset and 12 for each mitigant. The buffer may be longer, and what it has behind that book is not
 * read.
 *
 * An asset that is added stands behind the last asset and before the mitigants, which move up by 48
 * bytes; its place is one more than there were assets. Its record is read by the version of the
 * book, and it comes without mitigants: the count of them in its record is 0 (bytes 6 and 7 in
 * version 1; byte 6 in version 2, where byte 7 is its desk). An asset that is taken away goes with
 * all its mitigants, and what stood behind closes up: the places of the assets behind it fall by
 * one, those of the mitigants behind its own by as many as it had. The book's counts of assets and
 * of mitigants follow. Everything else of the book stays: its version, byte 12, the total assets,
 * the capital base and the excluded assets of its header, whatever comes or goes; the
 * counterparties, also one with whom no asset is left; and the other assets and mitigants, in their
 * order. The bytes of the buffer behind the new end stay as they were; after an asset was taken away
 * they begin with the last bytes of the longer book. So the end of a book is told by its counts
 * alone: weightrose_book_length() reads it from them.
 *
 * The book as it stands is checked first, as weightrose_report() checks it, but that a buffer longer
 * than its counts say is no fault. Then the movement itself is (22), then the book that would
 * result: where weightrose_report() would refuse that one, the movement is refused by the same
 * number and place, and the place is one of that book. A 901st asset is WEIGHTROSE_BOOK_COUNTS,
 * whatever its record. A bad record is WEIGHTROSE_ASSET, and entry class 3 without byte 12
 * WEIGHTROSE_SPECIALIST_ENTRY, both with the new asset's place; a count of mitigants that is not 0
 * is WEIGHTROSE_MITIGANT_COUNTS. To add reinsurance may be WEIGHTROSE_REINSURANCE_VALUES or
 * WEIGHTROSE_STRESSED_ASSETS. To take reinsurance away may be WEIGHTROSE_STRESSED_ASSETS too, where
 * without its stress less is left than is excluded, or where VAF' is over the most once its value is
 * no longer taken off; by no other number of the resulting book is taking away refused. Last, each
 * buffer must have room for what is to be in it, the new book or its report. A refused movement
 * changes no byte of either buffer.
 *
 * A day is any list of movements in one buffer that starts from an accepted book, under one
 * schedule, while nobody else writes the book. The refused ones are as if they had not been asked
 * for. After each of the others the book is accepted, so that within a day no refusal is of the book
 * as it stands, and the report is, byte for byte, the one that weightrose_report() makes afresh from
 * the header's amounts, the counterparties and the assets then present: what is left of the book of
 * the start, each asset with its mitigants, and behind it what is left of the added assets, in the
 * order in which they came. From one movement to the next nothing is kept but the book: no call
 * starts a day, and none ends it. Whoever wants the total assets, the capital base or the excluded
 * assets to follow the assets, or has a counterparty or a mitigant to add, writes the book himself
 * between two movements, and that is the start of another day.
 */

/* ========================================================================== */
/*                                  Answers                                   */
/* ========================================================================== */

/*
 * Why a schedule, a book, a cost rate, a list of questions, a movement or a buffer was turned back,
 * and the answer is the first check that fails. weightrose_report() makes them in the order 1 to 13,
 * 17, 14, 15, 16, weightrose_convert() in the order 5 to 13, 17, 14, 15, 18, 16, weightrose_bills()
 * in the order 1 to 13, 17, 14, 15, 19, 16, and weightrose_headroom() in the order 1 to 13, 17, 14,
 * 15, 20, 21. weightrose_add() and weightrose_remove() make them in the order 1 to 13, 17, 14, 15 of
 * the book as it stands, 22, then 5 to 13, 17, 14, 15 of the book that would result, 16.
 */
enum weightrose_refusal {
	/* Nothing was refused: there is a report, a converted book, bills, answers to questions, or a
	 * book after a movement with its report. */
	WEIGHTROSE_ACCEPTED = 0,
	/* The schedule is not of 122 bytes. */
	WEIGHTROSE_SCHEDULE_LENGTH = 1,
	/* The schedule does not start with "ACL" and a zero byte. */
	WEIGHTROSE_SCHEDULE_MARK = 2,
	/* The schedule's version is neither 1 nor 2. */
	WEIGHTROSE_SCHEDULE_VERSION = 3,
	/* The schedule has a rate over 1,500 (over 15,000 in version 2), a percent over 100 or a fixed
	 * amount over the most. */
	WEIGHTROSE_SCHEDULE_RATES = 4,
	/* The book, or the buffer that it lies in, is shorter than its header of 40 bytes. */
	WEIGHTROSE_BOOK_LENGTH = 5,
	/* The book does not start with "ACB" and a zero byte, byte 12 is not 0 or 1, or bytes 13 to
	 * 15 are not zero. */
	WEIGHTROSE_BOOK_MARK = 6,
	/* The book's version is neither 1 nor 2; of a book to be converted, it is not 1. */
	WEIGHTROSE_BOOK_VERSION = 7,
	/* The book has more records than it may, or another length than its counts say; of a
	 * movement, its buffer is shorter than they say, or it has 900 assets and one is added. */
	WEIGHTROSE_BOOK_COUNTS = 8,
	/* The book's total, capital base or excluded assets are out of range. */
	WEIGHTROSE_BOOK_AMOUNTS = 9,
	/* A counterparty has a bad field or an unknown bit. The place is its own, from 1. */
	WEIGHTROSE_COUNTERPARTY = 10,
	/* An asset has a bad field, an unknown bit or an amount over the most. The place is its own. */
	WEIGHTROSE_ASSET = 11,
	/* A mitigant has a bad field, an unknown bit or an amount over the most. The place is its own. */
	WEIGHTROSE_MITIGANT = 12,
	/* The assets' counts of mitigants do not add up to the book's mitigants; so it is where an
	 * asset to be added has a count that is not 0. */
	WEIGHTROSE_MITIGANT_COUNTS = 13,
	/* The values of reinsurance assets add up to more than the total assets. */
	WEIGHTROSE_REINSURANCE_VALUES = 14,
	/* The assets under stress (VAF', paragraph 20) are below 0 or over the most. */
	WEIGHTROSE_STRESSED_ASSETS = 15,
	/* The buffer is shorter than the report, than the book to be converted, or than the bills; of
	 * a movement, one of its two buffers is shorter than the new book or than its report. */
	WEIGHTROSE_BUFFER_SHORT = 16,
	/* An asset, linked or not, has entry class 3 in a book that is no specialist fund's. The
	 * place is its own, the first such asset's. Checked after 13 and before 14. */
	WEIGHTROSE_SPECIALIST_ENTRY = 17,
	/* An asset, linked or not, of a book to be converted has more than 255 mitigants. The place
	 * is its own, the first such asset's. Checked after 15 and before 16. */
	WEIGHTROSE_MANY_MITIGANTS = 18,
	/* The cost rate is over 1,000 ten-thousandths. Checked after 15 and before 16. */
	WEIGHTROSE_COST_RATE = 19,
	/* The list of questions is not of three bytes a question or has more than 200 of them, or one
	 * has a place that is no counterparty's of the book or a kind other than 1 to 8, 10 and 11.
	 * The place is 0. Checked after 15 and before 21. */
	WEIGHTROSE_QUESTIONS = 20,
	/* The buffer is shorter than eight bytes a question. Checked last. */
	WEIGHTROSE_ANSWERS_SHORT = 21,
	/* The asset to be taken away is not there: its place is 0 or over the book's assets; or the
	 * record to be added is not of 48 bytes. The place is 0. Checked after 15 of the book as it
	 * stands and before all checks of the book that would result. */
	WEIGHTROSE_MOVEMENT = 22
};

/* The refusal of an answer of weightrose_report(), weightrose_convert(), weightrose_bills(),
 * weightrose_headroom(), weightrose_add() or weightrose_remove(), WEIGHTROSE_ACCEPTED where bytes
 * were written or no question was asked. */
static inline enum weightrose_refusal
weightrose_refusal_of(uint64_t answer)
{
	return (enum weightrose_refusal)(answer >> 32);
}

/* The place of a refused record, counted from 1: of the counterparty, asset or mitigant where the
 * refusal is of one of these (10, 11 and 12, and 17 and 18 for an asset), otherwise 0. Of a movement
 * it is a place of the book that is refused, and an asset to be added has the place behind the last.
 * Only for an answer with a refusal. */
static inline uint32_t
weightrose_place_of(uint64_t answer)
{
	return (uint32_t)answer;
}

/* The bytes that were written: those of the report, of the converted book, of the bills, or of the
 * answers to questions; of a movement, those of the report. Only for an answer without a refusal. */
static inline size_t
weightrose_length_of(uint64_t answer)
{
	return (size_t)(uint32_t)answer;
}

/* ========================================================================== */
/*                                 Functions                                  */
/* ========================================================================== */

/*
 * weightrose_version() returns the version of the library, and which versions of schedules and of
 * books it takes, as one number that is always the same: the low 32 bits are the library's
 * WEIGHTROSE_VERSION_NUMBER; bit 32 + n is set where weightrose_report() takes schedules of version
 * n, and bit 48 + n where it takes books of version n, for n from 0 to 15; none of a version above
 * is taken. A host asks once, at its start: weightrose_belongs() tells whether the library is the
 * one of the header that the host was compiled with, weightrose_takes_schedule() and
 * weightrose_takes_book() whether it takes what the host has in its files. Libraries up to 0.9.0 do
 * not have this function.
 */
uint64_t
weightrose_version(void);

/* The version of the library as a number, to be compared with WEIGHTROSE_VERSION_NUMBER. */
static inline uint32_t
weightrose_version_number(void)
{
	return (uint32_t)weightrose_version();
}

/* Whether the library takes schedules of that version. */
static inline int
weightrose_takes_schedule(unsigned version)
{
	return version < 16 && (weightrose_version() >> 32 >> version & 1) != 0;
}

/* Whether the library takes books of that version. */
static inline int
weightrose_takes_book(unsigned version)
{
	return version < 16 && (weightrose_version() >> 48 >> version & 1) != 0;
}

/* Whether header and library belong together. */
static inline int
weightrose_belongs(void)
{
	return weightrose_version() == ((uint64_t)WEIGHTROSE_BOOKS_TAKEN << 48 |
					(uint64_t)WEIGHTROSE_SCHEDULES_TAKEN << 32 |
					WEIGHTROSE_VERSION_NUMBER);
}

/*
 * weightrose_report() makes the report of a book under a schedule. It reads 'schedule_len' bytes
 * at 'schedule' and 'book_len' bytes at 'book', and changes neither. If both are accepted and the
 * report takes no more than 'report_len' bytes, it writes the report at 'report' and returns its
 * length; the bytes of the buffer behind the report stay as they were. Otherwise it returns a
 * refusal and changes no byte of the buffer. The high 32 bits of the answer are the refusal's
 * number, 0 for none, and the low 32 bits the report's length, or the place of the refused record:
 * take them apart by weightrose_refusal_of(), weightrose_length_of() and weightrose_place_of(). Any
 * lengths may be handed in; a book of another length than its header says is refused, as is a
 * buffer that is too short, so a caller that does not know the length lends
 * WEIGHTROSE_MOST_REPORT_SIZE bytes. The buffer must be apart from schedule and book, which no
 * other thread may change during the call. A pointer may be NULL where its length is 0. What is in
 * the buffer beforehand does not matter and is not read.
 */
uint64_t
weightrose_report(const uint8_t *schedule, size_t schedule_len,
		  const uint8_t *book, size_t book_len,
		  uint8_t *report, size_t report_len);

/*
 * weightrose_convert() turns a book of version 1 into one of version 2, all of whose assets are of
 * desk 0. It reads 'book_len' bytes at 'book' and changes none of them. If the book is of version 1,
 * would be accepted by weightrose_report(), has no asset with more than 255 mitigants, and
 * 'converted_len' is not below 'book_len', it writes the new book, which has the same length, at
 * 'converted' and returns that length; bytes behind it stay as they were. Otherwise it returns a
 * refusal and changes no byte of the buffer. Answers are taken apart as those of
 * weightrose_report(), and the same holds of pointers, threads and what the buffer has beforehand.
 * Nothing is lost: under every schedule, and with every buffer lent for the report, the old book
 * and the new one get the same answer and the same bytes, and the old one is had from the new one
 * by its version in bytes 4 and 5 and its counts in two bytes. A book with an asset of more than
 * 255 mitigants has no version 2; it goes on being accepted as version 1.
 */
uint64_t
weightrose_convert(const uint8_t *book, size_t book_len,
		   uint8_t *converted, size_t converted_len);

/*
 * weightrose_bills() bills each desk for the capital that its excess ties up. It reads
 * 'schedule_len' bytes at 'schedule' and 'book_len' bytes at 'book', a book of either version, and
 * changes neither. 'rate' is the cost rate in ten-thousandths; any number may be handed in, and one
 * over WEIGHTROSE_MOST_COST_RATE is refused. If schedule and book would be accepted by
 * weightrose_report(), whatever the length of the report, the rate is accepted, and 'bills_len' is
 * not below WEIGHTROSE_BILLS_SIZE, it writes the bills of all 256 desks at 'bills' and returns
 * their length, 2,048; bytes behind them stay as they were. Otherwise it returns a refusal and
 * changes no byte of the buffer. Answers are taken apart as those of weightrose_report(), and the
 * same holds of pointers, threads and what the buffer has beforehand.
 *
 * Excesses: an asset that is not linked has exposure lines, one for each part of it that a mitigant
 * covers, in the order of its mitigants, then one for its remainder. A covered part is in the group
 * of the mitigant's counterparty and in the tier of what it becomes there, as in the report, the
 * remainder in the group and tier of the asset itself; all are of the asset's desk, which is 0 in a
 * book of version 1. What stands in a tier of a group is WEIGHTROSE_LINE_EXPOSURE less
 * WEIGHTROSE_LINE_EXCESS of the report's line; where lines print the same limit, their rank decides
 * what stands in which. It is given to the exposure lines in that tier of that group, asset by asset
 * in book order: to each its whole amount, as long as so much is left; to the next one the rest, and
 * to those behind it nothing. What a line is not given is its excess. Linked assets have no lines,
 * and exposures without limit no excess. A desk's excess is the sum of its lines' excesses; that of
 * desk 0 has besides, in books of either version, what WEIGHTROSE_HEADER_A3_SUM has above
 * WEIGHTROSE_HEADER_A3_LIMIT, if anything. All desks' excesses add up to WEIGHTROSE_HEADER_CHARGE.
 *
 * Bills: desk by desk from 0, the excesses of that desk and of all before it are added up,
 * multiplied by the rate, divided by 10,000 and rounded down to a cent; the bill is that figure
 * less the same figure before that desk. The 256 bills so add up to the charge times the rate,
 * divided by 10,000 and rounded down, to the cent. Each is the cost of the desk's own excess,
 * rounded down or up, and 0 where there is no excess. Bills follow the order of all assets in the
 * book; a report follows it only among treaties that draw on one half.
 */
uint64_t
weightrose_bills(const uint8_t *schedule, size_t schedule_len,
		 const uint8_t *book, size_t book_len, uint64_t rate,
		 uint8_t *bills, size_t bills_len);

/*
 * weightrose_headroom() answers how much more may be bought. It reads 'schedule_len' bytes at
 * 'schedule', 'book_len' bytes at 'book', a book of either version, and 'questions_len' bytes at
 * 'questions', a list of questions of WEIGHTROSE_QUESTION_SIZE bytes each, and changes none of
 * them. If schedule and book would be accepted by weightrose_report(), whatever the length of the
 * report, the length of the list is three times the number of its questions, these are at most
 * WEIGHTROSE_MOST_QUESTIONS, each of them has a place from 1 to the book's number of counterparties
 * and a kind from 1 to 11 other than 9, and 'answers_len' is not below WEIGHTROSE_ANSWER_SIZE times
 * the number of questions, it writes their answers at 'answers', in the order of the questions, and
 * returns their length; bytes behind them stay as they were. An empty list, of 0 bytes, is accepted
 * and gets no answers: their length is 0, and so is all that is returned. Otherwise it returns a
 * refusal, WEIGHTROSE_QUESTIONS before WEIGHTROSE_ANSWERS_SHORT, both after all refusals of
 * schedule and book, and changes no byte of the buffer; WEIGHTROSE_BUFFER_SHORT is none of its
 * refusals. What it returns is taken apart as the answers of weightrose_report(), and the same
 * holds of pointers, threads and what the buffer has beforehand; the list, too, must be apart from
 * the buffer, and no other thread may change it during the call.
 *
 * A question is about a tier of a group: the tier of an asset of that kind with that counterparty,
 * not linked and without mitigants, as in the report, and the group that the counterparty is in,
 * whether or not the group has an exposure in that tier or any at all. Its answer is the greatest
 * amount, in cents, up to WEIGHTROSE_MOST_AMOUNT, that can be added to what the group has in that
 * tier without raising the charge: with the answer added the charge is the same, and with one cent
 * more it is greater, unless the answer is WEIGHTROSE_MOST_AMOUNT. Where the asset would have no
 * limit (kind 1 with the home government, kind 2 with a related registered life company), the
 * answer is WEIGHTROSE_MOST_AMOUNT.
 *
 * All else is held as the report has it: the total assets, VAF and VAF', every tier's limit, and
 * with it what bank bills take off the limit of deposits, WEIGHTROSE_HEADER_A3_SUM and
 * WEIGHTROSE_HEADER_A3_LIMIT. More bank bills may be bought as if they left the limit of deposits
 * alone. A charge that is there already takes no room by itself: an excess under Attachment A,
 * paragraph 3, or of another group changes no answer. It follows that the answer is the least of
 * WEIGHTROSE_MOST_AMOUNT and of the rooms at the tier itself and at each tier of the group that
 * ranks above it, as the report's lines rank. The room at a tier is its limit in cents less what
 * stands in it and in all tiers of the group that rank below it, and what stands in a tier is
 * WEIGHTROSE_LINE_EXPOSURE less WEIGHTROSE_LINE_EXCESS of the report's line, 0 where there is none.
 * The answer is 0, then, at a tier with an excess and at every tier of its group that ranks below
 * it, even at one that is within its own limit. It is the same whichever of two tiers with equal
 * printed limits ranks first.
 *
 * All questions go through one reading of the book, and each is answered by itself, as if nothing
 * was bought on the answers before it: its answer is the one that it gets in a list of its own.
 * What is bought on one answer can take the room of another: buy, and ask again with the new book.
 */
uint64_t
weightrose_headroom(const uint8_t *schedule, size_t schedule_len,
		    const uint8_t *book, size_t book_len,
		    const uint8_t *questions, size_t questions_len,
		    uint8_t *answers, size_t answers_len);

/*
 * weightrose_add() adds an asset to the book that stands at the start of a buffer. It reads
 * 'schedule_len' bytes at 'schedule' and 'record_len' bytes at 'record', the record of an asset
 * without mitigants, and changes neither; 'book_len' is the length of the buffer at 'book', which
 * has a book of either version at its start. If schedule and book would be accepted by
 * weightrose_report(), whatever the length of the report, 'record_len' is WEIGHTROSE_ASSET_SIZE, the
 * book with the asset behind its last asset would be accepted likewise, and neither is that book
 * longer than 'book_len' nor its report longer than 'report_len', it leaves that book, 48 bytes
 * longer than the old one, at 'book', writes its report at 'report' and returns the report's length;
 * the bytes of both buffers behind book and report stay as they were. Otherwise it returns a refusal
 * and changes no byte of either buffer. Answers are taken apart as those of weightrose_report(). A
 * caller lends WEIGHTROSE_MOST_BOOK_SIZE bytes for the book and WEIGHTROSE_MOST_REPORT_SIZE for the
 * report, and neither is ever too short. The two buffers must be apart from each other and from
 * schedule and record; no other thread may change schedule or record, or read or change either
 * buffer, during the call. A pointer may be NULL where its length is 0. What is in the report's
 * buffer beforehand, and behind the book in its own, does not matter and is not read.
 */
uint64_t
weightrose_add(const uint8_t *schedule, size_t schedule_len,
	       const uint8_t *record, size_t record_len,
	       uint8_t *book, size_t book_len,
	       uint8_t *report, size_t report_len);

/*
 * weightrose_remove() takes an asset, with all its mitigants, away from the book that stands at the
 * start of a buffer. 'place' is the asset's, counted from 1; any number may be handed in, and one
 * that is 0 or over the book's number of assets is refused. It reads 'schedule_len' bytes at
 * 'schedule' and does not change them; 'book_len' is the length of the buffer at 'book', which has a
 * book of either version at its start. If schedule and book would be accepted by
 * weightrose_report(), whatever the length of the report, the place is an asset's, the book without
 * that asset and its mitigants would be accepted likewise, and its report is not longer than
 * 'report_len', it leaves that book, shorter by 48 bytes and by 12 for each of those mitigants, at
 * 'book', writes its report at 'report' and returns the report's length; the bytes of both buffers
 * behind book and report stay as they were. Otherwise it returns a refusal and changes no byte of
 * either buffer. The report of the shorter book may be the longer one. Answers are taken apart as
 * those of weightrose_report(), and of buffers, pointers and threads the same holds as of
 * weightrose_add(). An asset that was added last and is taken away again leaves the book's bytes as
 * they were before it came; the 48 bytes behind them are then the last of the longer book.
 */
uint64_t
weightrose_remove(const uint8_t *schedule, size_t schedule_len, uint64_t place,
		  uint8_t *book, size_t book_len,
		  uint8_t *report, size_t report_len);

/*
 * weightrose_published() writes the published schedule (LPS 117, Attachment A, paragraphs 1 to 3),
 * of version 1, 122 bytes, at 'schedule' and returns 122; bytes behind these stay as they were. If
 * 'schedule_len' is below 122, it returns 0 and changes nothing. The schedule it writes is always
 * accepted by weightrose_report(), weightrose_bills(), weightrose_headroom(), weightrose_add() and
 * weightrose_remove().
 */
uint64_t
weightrose_published(uint8_t *schedule, size_t schedule_len);

/* ========================================================================== */
/*                             Reading a report                               */
/* ========================================================================== */

/*
 * Where the fields of a report stand, in bytes from the start of the report (header) or of the
 * line. The header's mark is "ACR" and a zero byte, its version 1. Its amounts, and those of a
 * line, are unsigned numbers of 64 bits, all others of 16 bits but for the tier, a single byte.
 */
enum weightrose_header_field {
	WEIGHTROSE_HEADER_VERSION = 4,
	WEIGHTROSE_HEADER_LINES = 6,         /* how many lines follow */
	WEIGHTROSE_HEADER_VAF = 8,           /* value of assets of the fund (paragraph 16) */
	WEIGHTROSE_HEADER_VAF_STRESSED = 16, /* the same for reinsurance, VAF' (paragraph 20) */
	WEIGHTROSE_HEADER_ALL_NET = 24,      /* all assets' nets, linked ones too */
	WEIGHTROSE_HEADER_UNLIMITED = 32,    /* linked nets and exposures without limit */
	WEIGHTROSE_HEADER_GROUP_EXCESS = 40, /* the excesses of all lines */
	WEIGHTROSE_HEADER_A3_SUM = 48,       /* reinsurance under Attachment A, paragraph 3 */
	WEIGHTROSE_HEADER_A3_LIMIT = 56,     /* and its limit */
	WEIGHTROSE_HEADER_CHARGE = 64        /* the asset concentration charge */
};

/*
 * Lines stand group by group, by the place of the topmost parent, and within a group by the rank of
 * their tiers, lowest first. Tiers rank by their limits before these are rounded down to cents, and
 * by their numbers only where they are equal even then. So two lines of a group that print the same
 * limit may stand with the higher tier number first: with VAF 41, VAF' 40 and no capital base the
 * published schedule gives WEIGHTROSE_TIER_I 1.025 cents and WEIGHTROSE_TIER_I_REINSURANCE 1.000,
 * both print 1, and the second stands first. Limit, left and excess are whole cents all the same,
 * and left is what the printed limit leaves.
 *
 * Who recomputes the order compares exact products, not WEIGHTROSE_LINE_LIMIT: the greatest of the
 * row's two VAF rates times VAF or VAF', its base rate times the capital base (0 where that is
 * negative) and its fixed amount, times the percent kept. In row d the first of these is lessened by
 * all that the fund has in WEIGHTROSE_TIER_C of kind 3, not below 0. With rates in ten-thousandths,
 * of which a rate per mille counts ten, the fixed amount and that sum times 10,000, and 100 per cent
 * where all is kept, that is a whole number of millionths of a cent. It fits in 64 bits unsigned,
 * and not in a double.
 */
enum weightrose_line_field {
	WEIGHTROSE_LINE_TOP = 0,      /* place of the group's topmost parent, from 1 */
	WEIGHTROSE_LINE_TIER = 2,     /* enum weightrose_tier */
	WEIGHTROSE_LINE_TIER_SET = 4, /* bit n, 0 to 15: the group has a line of tier n */
	WEIGHTROSE_LINE_EXPOSURE = 8,
	WEIGHTROSE_LINE_LIMIT = 16,   /* rounded down to a cent; lines rank by it before that */
	WEIGHTROSE_LINE_LEFT = 24,    /* the limit, less what stands in the group's lines before */
	WEIGHTROSE_LINE_EXCESS = 32   /* what of the exposure passes that */
};

/* The tiers by their numbers: the items of Attachment A, paragraph 1, with reinsurance apart, and
 * the steps after a downgrade of its paragraph 2; then the retrocessions of specialist funds
 * (paragraph 46), at 500, 330 and 170 per mille of VAF' whatever the schedule and its version. */
enum weightrose_tier {
	WEIGHTROSE_TIER_I = 0,
	WEIGHTROSE_TIER_I_REINSURANCE = 1,
	WEIGHTROSE_TIER_H = 2,
	WEIGHTROSE_TIER_H_REINSURANCE = 3,
	WEIGHTROSE_TIER_G_SECOND = 4,
	WEIGHTROSE_TIER_G_FIRST = 5,
	WEIGHTROSE_TIER_G = 6,
	WEIGHTROSE_TIER_E_SECOND = 7,
	WEIGHTROSE_TIER_E_FIRST = 8,
	WEIGHTROSE_TIER_E = 9,
	WEIGHTROSE_TIER_F = 10,
	WEIGHTROSE_TIER_C = 11,
	WEIGHTROSE_TIER_D = 12,
	WEIGHTROSE_TIER_RETROCESSION = 13,
	WEIGHTROSE_TIER_RETROCESSION_FIRST = 14,
	WEIGHTROSE_TIER_RETROCESSION_SECOND = 15
};

/* The line of that number, from 0, of a report. */
static inline const uint8_t *
weightrose_line(const uint8_t *report, unsigned number)
{
	return report + WEIGHTROSE_REPORT_HEADER_SIZE +
	       (size_t)number * WEIGHTROSE_REPORT_LINE_SIZE;
}

/* The number of 16 bits at a place. */
static inline uint16_t
weightrose_u16(const uint8_t *bytes)
{
	return (uint16_t)(bytes[0] | (unsigned)bytes[1] << 8);
}

/* The number of 64 bits at a place. */
static inline uint64_t
weightrose_u64(const uint8_t *bytes)
{
	uint64_t number = 0;
	int i;

	for (i = 7; i >= 0; i--)
		number = number << 8 | bytes[i];
	return number;
}

/* ========================================================================== */
/*                              Reading bills                                 */
/* ========================================================================== */

/*
 * Bills are unsigned numbers of 64 bits, one behind the other: that of desk 0 first, that of desk
 * 255 in the last eight bytes. They are whole cents, and may be over WEIGHTROSE_MOST_AMOUNT.
 */

/* The bill of that desk, 0 to 255. */
static inline uint64_t
weightrose_bill(const uint8_t *bills, unsigned desk)
{
	return weightrose_u64(bills + (size_t)desk * WEIGHTROSE_BILL_SIZE);
}

/* ========================================================================== */
/*                         Questions and their answers                        */
/* ========================================================================== */

/*
 * Answers are unsigned numbers of 64 bits, one behind the other, in the order of the questions.
 * They are whole cents, and none is over WEIGHTROSE_MOST_AMOUNT.
 */

/* Writes the question of that number, from 0, into a list: how much more of that kind may be bought
 * with the counterparty at that place, from 1. */
static inline void
weightrose_ask(uint8_t *questions, unsigned number, uint16_t counterparty, uint8_t kind)
{
	uint8_t *question = questions + (size_t)number * WEIGHTROSE_QUESTION_SIZE;

	question[0] = (uint8_t)(counterparty & 0xff);
	question[1] = (uint8_t)(counterparty >> 8);
	question[2] = kind;
}

/* The answer to the question of that number, from 0. */
static inline uint64_t
weightrose_answer(const uint8_t *answers, unsigned number)
{
	return weightrose_u64(answers + (size_t)number * WEIGHTROSE_ANSWER_SIZE);
}

/* ========================================================================== */
/*                           A book after a movement                          */
/* ========================================================================== */

/* The bytes of a book as its counts say, whatever is behind them. The header's 40 bytes must be
 * there. Of a book after a movement this is the length that the other functions take. */
static inline size_t
weightrose_book_length(const uint8_t *book)
{
	return WEIGHTROSE_BOOK_HEADER_SIZE +
	       (size_t)weightrose_u16(book + 6) * WEIGHTROSE_COUNTERPARTY_SIZE +
	       (size_t)weightrose_u16(book + 8) * WEIGHTROSE_ASSET_SIZE +
	       (size_t)weightrose_u16(book + 10) * WEIGHTROSE_MITIGANT_SIZE;
}

#ifdef __cplusplus
}
#endif

#endif /* WEIGHTROSE_H */
