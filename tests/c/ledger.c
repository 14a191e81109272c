/*
 * A ledger that asks for the asset concentration charge of its own records.
 *
 * It writes its records as a book, takes the published schedule from the library, asks for the
 * report, walks the report's lines and prints them, and names every refusal in a sentence. It
 * checks itself against document 01's figures (T2, T4, T5 and the table of refusals) and those of
 * document 02's specialist funds (C-11), converts its book to version 2 and books its assets by
 * desk (C-13), bills the desks for the capital that their excesses tie up (C-14), moves its
 * schedule to rates in ten-thousandths (C-15), asks how much more its dealers may buy (C-16), looks
 * at lines whose limits are equal in cents alone (C-17), covers treaties with one reinsurer (C-18),
 * keeps its book current through days of movements (C-19), asks at its start whether the library is
 * the one that it was compiled for, and ends with status 1 where anything differs. Each block is as
 * long as its bytes, so that a memory checker sees any byte read or written past its end.
 */
#include "weightrose.h"

#include <inttypes.h>
#include <stdio.h>
#include <stdlib.h>
#include <string.h>

/* ---- The ledger's own records ---- */

enum { NO_PARENT = 0, BANK = 1, HOME_GOVERNMENT = 2, REGISTERED = 4, UNGRADED = 0 };
enum {
	GOVERNMENT_GUARANTEED = 1,
	BANK_BILL = 3,
	DEPOSIT = 4,
	TRADED = 6,
	LOAN = 7,
	REINSURANCE = 9,
	ANY_OTHER = 11
};
enum { NO_ENTRY = 0, ITEM_E = 1, RETROCESSION = 3 };
enum { CASH = 1, LETTER = 5 };
enum { TERMS_OF_42 = 1 << 3 };

struct counterparty {
	uint16_t parent;
	uint8_t kind, grade, flags;
};

struct mitigant {
	uint8_t form, flags;
	uint16_t counterparty;
	uint64_t value;
};

struct asset {
	uint8_t kind;
	uint16_t counterparty;
	uint64_t value, combination_stress;
	uint16_t mitigants;
	uint8_t entry, months;
};

struct ledger {
	uint8_t specialist;
	uint64_t total_assets;
	int64_t capital_base;
	uint64_t excluded_assets;
	const struct counterparty *counterparties;
	size_t counterparty_count;
	const struct asset *assets;
	size_t asset_count;
	const struct mitigant *mitigants;
	size_t mitigant_count;
};

static const struct ledger empty_ledger = { 0, 0, 0, 0, NULL, 0, NULL, 0, NULL, 0 };

#define COUNT(array) (sizeof(array) / sizeof((array)[0]))

/* ---- Records to bytes ---- */

/* A block that is just as long as its bytes. */
struct block {
	uint8_t *bytes;
	size_t length;
};

static struct block
new_block(size_t length)
{
	struct block block;

	block.bytes = (uint8_t *)malloc(length ? length : 1);
	block.length = length;
	if (!block.bytes)
		abort();
	return block;
}

/* Each of these writes at 'to' and returns the place behind. */

static uint8_t *
put_u8(uint8_t *to, uint8_t number)
{
	*to = number;
	return to + 1;
}

static uint8_t *
put_u16(uint8_t *to, uint16_t number)
{
	to = put_u8(to, (uint8_t)(number & 0xff));
	return put_u8(to, (uint8_t)(number >> 8));
}

static uint8_t *
put_u64(uint8_t *to, uint64_t number)
{
	int i;

	for (i = 0; i < 8; i++)
		to = put_u8(to, (uint8_t)(number >> 8 * i & 0xff));
	return to;
}

static uint8_t *
put_header(uint8_t *to, const struct ledger *ledger)
{
	memcpy(to, "ACB", 4);
	to = put_u16(to + 4, 1);
	to = put_u16(to, (uint16_t)ledger->counterparty_count);
	to = put_u16(to, (uint16_t)ledger->asset_count);
	to = put_u16(to, (uint16_t)ledger->mitigant_count);
	to = put_u8(to, ledger->specialist);
	memset(to, 0, 3);
	to = put_u64(to + 3, ledger->total_assets);
	to = put_u64(to, (uint64_t)ledger->capital_base);
	return put_u64(to, ledger->excluded_assets);
}

static uint8_t *
put_counterparty(uint8_t *to, const struct counterparty *counterparty)
{
	to = put_u16(to, counterparty->parent);
	to = put_u8(to, (uint8_t)(counterparty->kind << 4 | counterparty->grade));
	return put_u8(to, counterparty->flags);
}

static uint8_t *
put_asset(uint8_t *to, const struct asset *asset)
{
	to = put_u8(to, asset->kind);
	to = put_u8(to, 0); /* flags */
	to = put_u8(to, asset->entry);
	to = put_u8(to, asset->months);
	to = put_u16(to, asset->counterparty);
	to = put_u16(to, asset->mitigants);
	to = put_u64(to, asset->value);
	to = put_u64(to, 0); /* offsets */
	to = put_u64(to, 0); /* deductions */
	to = put_u64(to, 0); /* insurance stress */
	return put_u64(to, asset->combination_stress);
}

static uint8_t *
put_mitigant(uint8_t *to, const struct mitigant *mitigant)
{
	to = put_u8(to, mitigant->form);
	to = put_u8(to, mitigant->flags);
	to = put_u16(to, mitigant->counterparty);
	return put_u64(to, mitigant->value);
}

static struct block
new_book(const struct ledger *ledger)
{
	struct block book = new_block(WEIGHTROSE_BOOK_HEADER_SIZE +
				      WEIGHTROSE_COUNTERPARTY_SIZE * ledger->counterparty_count +
				      WEIGHTROSE_ASSET_SIZE * ledger->asset_count +
				      WEIGHTROSE_MITIGANT_SIZE * ledger->mitigant_count);
	uint8_t *to = put_header(book.bytes, ledger);
	size_t i;

	for (i = 0; i < ledger->counterparty_count; i++)
		to = put_counterparty(to, &ledger->counterparties[i]);
	for (i = 0; i < ledger->asset_count; i++)
		to = put_asset(to, &ledger->assets[i]);
	for (i = 0; i < ledger->mitigant_count; i++)
		to = put_mitigant(to, &ledger->mitigants[i]);
	if (to != book.bytes + book.length)
		abort();
	return book;
}

static struct block
new_schedule(void)
{
	struct block schedule = new_block(WEIGHTROSE_SCHEDULE_SIZE);

	if (weightrose_published(schedule.bytes, schedule.length) != WEIGHTROSE_SCHEDULE_SIZE)
		abort();
	return schedule;
}

/* ---- Answers ---- */

/* What the ledger tells its user. The compiler warns of a refusal that has no sentence. */
static const char *
sentence(enum weightrose_refusal refusal)
{
	switch (refusal) {
	case WEIGHTROSE_ACCEPTED:
		return "The report was made.";
	case WEIGHTROSE_SCHEDULE_LENGTH:
		return "The schedule is not of 122 bytes.";
	case WEIGHTROSE_SCHEDULE_MARK:
		return "The schedule's file is not a schedule.";
	case WEIGHTROSE_SCHEDULE_VERSION:
		return "The schedule is of a version that is not known here.";
	case WEIGHTROSE_SCHEDULE_RATES:
		return "A rate, a percent or a fixed amount of the schedule is too large.";
	case WEIGHTROSE_BOOK_LENGTH:
		return "The book has not even a header.";
	case WEIGHTROSE_BOOK_MARK:
		return "The book's bytes are not a book.";
	case WEIGHTROSE_BOOK_VERSION:
		return "The book is of a version that is not taken here.";
	case WEIGHTROSE_BOOK_COUNTS:
		return "The book has too many records, or is not as long as it says.";
	case WEIGHTROSE_BOOK_AMOUNTS:
		return "The fund's total, capital base or excluded assets are out of range.";
	case WEIGHTROSE_COUNTERPARTY:
		return "A counterparty's record is bad.";
	case WEIGHTROSE_ASSET:
		return "An asset's record is bad.";
	case WEIGHTROSE_MITIGANT:
		return "A mitigant's record is bad.";
	case WEIGHTROSE_MITIGANT_COUNTS:
		return "The assets do not share out all mitigants.";
	case WEIGHTROSE_REINSURANCE_VALUES:
		return "Reinsurance is worth more than all assets.";
	case WEIGHTROSE_STRESSED_ASSETS:
		return "The assets under stress are below zero or too large.";
	case WEIGHTROSE_BUFFER_SHORT:
		return "The buffer is too short.";
	case WEIGHTROSE_SPECIALIST_ENTRY:
		return "An asset is a retrocession that only a specialist fund may have.";
	case WEIGHTROSE_MANY_MITIGANTS:
		return "An asset has more mitigants than a book of version 2 can count.";
	case WEIGHTROSE_COST_RATE:
		return "The cost rate is over a tenth.";
	case WEIGHTROSE_QUESTIONS:
		return "The dealers' list asks too much, or what cannot be asked.";
	case WEIGHTROSE_ANSWERS_SHORT:
		return "The buffer is too short for the answers.";
	case WEIGHTROSE_MOVEMENT:
		return "There is no asset at that place, or the new one's record is not of 48 bytes.";
	}
	return "The answer is not one of this library's.";
}

static void
print_report(const uint8_t *report)
{
	unsigned lines = weightrose_u16(report + WEIGHTROSE_HEADER_LINES);
	unsigned i;

	for (i = 0; i < lines; i++) {
		const uint8_t *line = weightrose_line(report, i);

		printf("  group %u tier %u: exposure %" PRIu64 ", limit %" PRIu64 ", left %" PRIu64
		       ", excess %" PRIu64 "\n",
		       (unsigned)weightrose_u16(line + WEIGHTROSE_LINE_TOP),
		       (unsigned)line[WEIGHTROSE_LINE_TIER],
		       weightrose_u64(line + WEIGHTROSE_LINE_EXPOSURE),
		       weightrose_u64(line + WEIGHTROSE_LINE_LIMIT),
		       weightrose_u64(line + WEIGHTROSE_LINE_LEFT),
		       weightrose_u64(line + WEIGHTROSE_LINE_EXCESS));
	}
	printf("  charge %" PRIu64 "\n", weightrose_u64(report + WEIGHTROSE_HEADER_CHARGE));
}

/* ---- Checks ---- */

static int failures;

static void
expect(int holds, const char *what)
{
	if (!holds) {
		fprintf(stderr, "ledger: %s\n", what);
		failures++;
	}
}

/* The report of a ledger, in a block of its length; the caller frees it. */
static struct block
new_report(const char *name, const struct ledger *ledger)
{
	struct block schedule = new_schedule();
	struct block book = new_book(ledger);
	struct block room = new_block(WEIGHTROSE_MOST_REPORT_SIZE);
	struct block report;
	uint64_t answer = weightrose_report(schedule.bytes, schedule.length, book.bytes, book.length,
					    room.bytes, room.length);

	printf("%s: %s\n", name, sentence(weightrose_refusal_of(answer)));
	if (weightrose_refusal_of(answer) != WEIGHTROSE_ACCEPTED)
		exit(EXIT_FAILURE);
	report = new_block(weightrose_length_of(answer));
	expect(weightrose_report(schedule.bytes, schedule.length, book.bytes, book.length,
				 report.bytes, report.length) == answer,
	       "a buffer of the report's length gave another answer");
	expect(memcmp(report.bytes, room.bytes, report.length) == 0,
	       "a buffer of the report's length gave another report");
	print_report(report.bytes);
	free(schedule.bytes);
	free(book.bytes);
	free(room.bytes);
	return report;
}

static void
expect_charge(const char *name, const struct ledger *ledger, uint64_t charge)
{
	struct block report = new_report(name, ledger);

	expect(weightrose_u64(report.bytes + WEIGHTROSE_HEADER_CHARGE) == charge, name);
	free(report.bytes);
}

/* A ledger over whole arrays, with document 01's total and base. */
static struct ledger
ledger_of(const struct counterparty *counterparties, size_t counterparty_count,
	  const struct asset *assets, size_t asset_count)
{
	struct ledger ledger;

	memset(&ledger, 0, sizeof(ledger));
	ledger.total_assets = UINT64_C(10000000000);
	ledger.capital_base = INT64_C(1000000000);
	ledger.counterparties = counterparties;
	ledger.counterparty_count = counterparty_count;
	ledger.assets = assets;
	ledger.asset_count = asset_count;
	return ledger;
}

/* A line of a report: exposure, limit, left and excess are its amounts. */
struct line {
	uint16_t top;
	uint8_t tier;
	uint16_t tiers;
	uint64_t amounts[4];
};

static void
expect_line(const char *name, const uint8_t *line, const struct line *expected)
{
	int i;

	expect(weightrose_u16(line + WEIGHTROSE_LINE_TOP) == expected->top, name);
	expect(line[WEIGHTROSE_LINE_TIER] == expected->tier, name);
	expect(weightrose_u16(line + WEIGHTROSE_LINE_TIER_SET) == expected->tiers, name);
	for (i = 0; i < 4; i++)
		expect(weightrose_u64(line + WEIGHTROSE_LINE_EXPOSURE + 8 * i) ==
		       expected->amounts[i], name);
}

/* One ungraded name, with 3,000,000.00 each in kinds 11 and 6, and the tiers that it has. */
enum { T2_TIERS = 1 << WEIGHTROSE_TIER_I | 1 << WEIGHTROSE_TIER_H };

static struct ledger
t2_ledger(void)
{
	static const struct counterparty names[] = { { NO_PARENT, 0, UNGRADED, 0 } };
	static const struct asset assets[] = {
		{ ANY_OTHER, 1, 300000000, 0, 0, NO_ENTRY, 0 },
		{ TRADED, 1, 300000000, 0, 0, NO_ENTRY, 0 },
	};

	return ledger_of(names, COUNT(names), assets, COUNT(assets));
}

static void
t2(void)
{
	static const struct line lines[] = {
		{ 1, WEIGHTROSE_TIER_I, T2_TIERS, { 300000000, 250000000, 250000000, 50000000 } },
		{ 1, WEIGHTROSE_TIER_H, T2_TIERS, { 300000000, 500000000, 250000000, 50000000 } },
	};
	struct ledger ledger = t2_ledger();
	struct block report = new_report("T2", &ledger);

	expect(report.length == WEIGHTROSE_REPORT_HEADER_SIZE + 2 * WEIGHTROSE_REPORT_LINE_SIZE,
	       "T2: the report's length");
	expect(memcmp(report.bytes, "ACR\0\1\0\2\0", 8) == 0, "T2: the report's first bytes");
	expect_line("T2: the first line", weightrose_line(report.bytes, 0), &lines[0]);
	expect_line("T2: the second line", weightrose_line(report.bytes, 1), &lines[1]);
	expect(weightrose_u64(report.bytes + WEIGHTROSE_HEADER_CHARGE) == 100000000, "T2: the charge");
	free(report.bytes);
}

static void
t4_and_t5(void)
{
	static const struct counterparty banks[] = { { NO_PARENT, BANK, 1, 0 }, { NO_PARENT, BANK, 1, 0 } };
	static const struct asset two_banks[] = {
		{ DEPOSIT, 1, UINT64_C(4000000000), 0, 0, NO_ENTRY, 0 },
		{ BANK_BILL, 2, UINT64_C(1000000000), 0, 0, NO_ENTRY, 0 },
	};
	static const struct asset one_more[] = {
		{ DEPOSIT, 1, UINT64_C(4000000000), 0, 0, NO_ENTRY, 0 },
		{ BANK_BILL, 2, UINT64_C(1000000001), 0, 0, NO_ENTRY, 0 },
	};
	static const struct asset one_bank[] = {
		{ DEPOSIT, 1, UINT64_C(4000000000), 0, 0, NO_ENTRY, 0 },
		{ BANK_BILL, 1, UINT64_C(1000000000), 0, 0, NO_ENTRY, 0 },
	};
	struct ledger ledger = ledger_of(banks, COUNT(banks), two_banks, COUNT(two_banks));

	expect_charge("T4", &ledger, 0);
	ledger.assets = one_more;
	expect_charge("T4, bills one more", &ledger, 1);
	ledger.assets = one_bank;
	expect_charge("T5", &ledger, UINT64_C(1000000000));
}

/* ---- Refusals: a good schedule and a good book with one thing changed ---- */

/* Prints a refusal and expects this one, its place and a buffer still full of 0xa5. */
static void
expect_refused(const char *what, uint64_t answer, enum weightrose_refusal refusal, uint32_t place,
	       struct block untouched)
{
	size_t i;

	printf("%s %d at %" PRIu32 ": %s\n", what, (int)weightrose_refusal_of(answer),
	       weightrose_place_of(answer), sentence(weightrose_refusal_of(answer)));
	expect(weightrose_refusal_of(answer) == refusal, sentence(refusal));
	expect(weightrose_place_of(answer) == place, "a refusal's place");
	for (i = 0; i < untouched.length; i++)
		expect(untouched.bytes[i] == 0xa5, "a refusal changed the buffer");
}

/* Asks with a buffer of that length and expects the refusal, its place and an untouched buffer. */
static void
expect_refusal(struct block schedule, struct block book, size_t room,
	       enum weightrose_refusal refusal, uint32_t place)
{
	struct block report = new_block(room);
	uint64_t answer;

	memset(report.bytes, 0xa5, report.length);
	answer = weightrose_report(schedule.bytes, schedule.length, book.bytes, book.length,
				   report.bytes, report.length);
	expect_refused("refusal", answer, refusal, place, report);
	free(report.bytes);
}

/* The same with one byte of the schedule, or of the book, changed. */

static void
expect_schedule_refused(size_t place, uint8_t byte, enum weightrose_refusal refusal)
{
	struct block schedule = new_schedule();
	struct block book = new_book(&empty_ledger);

	schedule.bytes[place] = byte;
	expect_refusal(schedule, book, WEIGHTROSE_REPORT_HEADER_SIZE, refusal, 0);
	free(schedule.bytes);
	free(book.bytes);
}

static void
expect_book_refused(const struct ledger *ledger, size_t place, uint8_t byte,
		    enum weightrose_refusal refusal, uint32_t record)
{
	struct block schedule = new_schedule();
	struct block book = new_book(ledger);

	book.bytes[place] = byte;
	expect_refusal(schedule, book, WEIGHTROSE_REPORT_HEADER_SIZE, refusal, record);
	free(schedule.bytes);
	free(book.bytes);
}

static void
expect_ledger_refused(const struct ledger *ledger, enum weightrose_refusal refusal, uint32_t record)
{
	expect_book_refused(ledger, 0, 'A', refusal, record);
}

/* The lengths: 1, 5 and 16. An empty block may have no address. */
static void
length_refusals(void)
{
	const struct block none = { NULL, 0 };
	struct block schedule = new_schedule();
	struct block book = new_book(&empty_ledger);
	struct block short_schedule = new_block(WEIGHTROSE_SCHEDULE_SIZE - 1);

	memcpy(short_schedule.bytes, schedule.bytes, short_schedule.length);
	expect_refusal(short_schedule, book, 0, WEIGHTROSE_SCHEDULE_LENGTH, 0);
	expect_refusal(none, none, 0, WEIGHTROSE_SCHEDULE_LENGTH, 0);
	expect_refusal(schedule, none, WEIGHTROSE_REPORT_HEADER_SIZE, WEIGHTROSE_BOOK_LENGTH, 0);
	expect_refusal(schedule, book, WEIGHTROSE_REPORT_HEADER_SIZE - 1, WEIGHTROSE_BUFFER_SHORT, 0);
	expect(weightrose_refusal_of(weightrose_report(schedule.bytes, schedule.length, book.bytes,
						       book.length, NULL, 0)) == WEIGHTROSE_BUFFER_SHORT,
	       "no buffer at all");
	free(schedule.bytes);
	free(book.bytes);
	free(short_schedule.bytes);
}

static void
byte_refusals(void)
{
	expect_schedule_refused(2, 'B', WEIGHTROSE_SCHEDULE_MARK);
	expect_schedule_refused(4, 3, WEIGHTROSE_SCHEDULE_VERSION);
	expect_schedule_refused(11, 6, WEIGHTROSE_SCHEDULE_RATES); /* row c's rate: 250 + 6 * 256 */
	expect_book_refused(&empty_ledger, 12, 2, WEIGHTROSE_BOOK_MARK, 0);
	expect_book_refused(&empty_ledger, 4, 0, WEIGHTROSE_BOOK_VERSION, 0);
	expect_book_refused(&empty_ledger, 4, 3, WEIGHTROSE_BOOK_VERSION, 0);
	expect_book_refused(&empty_ledger, 8, 1, WEIGHTROSE_BOOK_COUNTS, 0);
}

static void
amount_refusals(void)
{
	static const struct counterparty names[] = { { NO_PARENT, 0, UNGRADED, 0 } };
	static const struct asset five[] = { { REINSURANCE, 1, 5, 5, 0, NO_ENTRY, 0 } };
	struct ledger ledger = ledger_of(names, COUNT(names), five, COUNT(five));

	ledger.capital_base = -WEIGHTROSE_MOST_AMOUNT - 1;
	expect_ledger_refused(&ledger, WEIGHTROSE_BOOK_AMOUNTS, 0);
	ledger.capital_base = 0;
	ledger.total_assets = 4;
	expect_ledger_refused(&ledger, WEIGHTROSE_REINSURANCE_VALUES, 0);
	ledger.total_assets = 5;
	ledger.excluded_assets = 6;
	expect_ledger_refused(&ledger, WEIGHTROSE_STRESSED_ASSETS, 0);
}

static void
record_refusals(void)
{
	static const struct counterparty own_parent[] = { { NO_PARENT, BANK, 1, 0 }, { 2, BANK, 1, 0 } };
	static const struct asset nobodys[] = {
		{ ANY_OTHER, 1, 1, 0, 1, NO_ENTRY, 0 },
		{ ANY_OTHER, 0, 1, 0, 0, NO_ENTRY, 0 },
	};
	static const struct mitigant formless[] = { { 6, 0, 1, 1 } };
	static const struct mitigant cash[] = { { CASH, 0, 1, 1 } };
	struct ledger ledger = ledger_of(own_parent, COUNT(own_parent), NULL, 0);

	expect_ledger_refused(&ledger, WEIGHTROSE_COUNTERPARTY, 2);
	ledger.counterparty_count = 1;
	ledger.assets = nobodys;
	ledger.asset_count = COUNT(nobodys);
	expect_ledger_refused(&ledger, WEIGHTROSE_ASSET, 2);
	ledger.asset_count = 1;
	ledger.mitigants = formless;
	ledger.mitigant_count = COUNT(formless);
	expect_ledger_refused(&ledger, WEIGHTROSE_MITIGANT, 1);
	ledger.asset_count = 0;
	ledger.mitigants = cash;
	expect_ledger_refused(&ledger, WEIGHTROSE_MITIGANT_COUNTS, 0);
}

/* ---- Specialist funds ---- */

/*
 * A specialist fund retrocedes to its overseas parent, which is graded, and to two associated
 * companies, downgraded three and twelve months ago. The same book of a fund that is no specialist
 * is refused at its first retrocession.
 */
static void
specialist_fund(void)
{
	enum {
		TIERS = 1 << WEIGHTROSE_TIER_RETROCESSION |
			1 << WEIGHTROSE_TIER_RETROCESSION_FIRST |
			1 << WEIGHTROSE_TIER_RETROCESSION_SECOND
	};
	static const struct counterparty names[] = {
		{ NO_PARENT, BANK, 1, 0 },
		{ NO_PARENT, 0, 2, 0 },
		{ 2, 0, UNGRADED, 0 },
		{ 2, 0, UNGRADED, 0 },
	};
	static const struct asset assets[] = {
		{ DEPOSIT, 1, UINT64_C(1000000000), 0, 0, NO_ENTRY, 0 },
		{ REINSURANCE, 2, UINT64_C(1800000000), UINT64_C(1800000000), 0, RETROCESSION, 0 },
		{ REINSURANCE, 3, UINT64_C(1700000000), UINT64_C(1700000000), 0, RETROCESSION, 3 },
		{ REINSURANCE, 4, UINT64_C(1800000000), UINT64_C(1800000000), 0, RETROCESSION, 12 },
	};
	static const struct line lines[] = {
		{ 1, WEIGHTROSE_TIER_D, 1 << WEIGHTROSE_TIER_D,
		  { UINT64_C(1000000000), UINT64_C(5000000000), UINT64_C(5000000000), 0 } },
		{ 2, WEIGHTROSE_TIER_RETROCESSION_SECOND, TIERS,
		  { UINT64_C(1800000000), UINT64_C(1700000000), UINT64_C(1700000000), 100000000 } },
		{ 2, WEIGHTROSE_TIER_RETROCESSION_FIRST, TIERS,
		  { UINT64_C(1700000000), UINT64_C(3300000000), UINT64_C(1600000000), 100000000 } },
		{ 2, WEIGHTROSE_TIER_RETROCESSION, TIERS,
		  { UINT64_C(1800000000), UINT64_C(5000000000), UINT64_C(1700000000), 100000000 } },
	};
	struct ledger ledger = ledger_of(names, COUNT(names), assets, COUNT(assets));
	struct block report;
	unsigned i;

	ledger.specialist = 1;
	report = new_report("C-11", &ledger);
	expect(weightrose_u16(report.bytes + WEIGHTROSE_HEADER_LINES) == COUNT(lines),
	       "C-11: the number of lines");
	for (i = 0; i < COUNT(lines); i++)
		expect_line("C-11: a line", weightrose_line(report.bytes, i), &lines[i]);
	expect(weightrose_u64(report.bytes + WEIGHTROSE_HEADER_A3_SUM) == 0, "C-11: the A3 sum");
	expect(weightrose_u64(report.bytes + WEIGHTROSE_HEADER_CHARGE) == 300000000,
	       "C-11: the charge");
	free(report.bytes);

	ledger.specialist = 0;
	expect_ledger_refused(&ledger, WEIGHTROSE_SPECIALIST_ENTRY, 2);
}

/* ---- Books of version 2 ---- */

/* The report of a book under a schedule, in a block of its length. */
static struct block
report_under(struct block schedule, struct block book)
{
	struct block room = new_block(WEIGHTROSE_MOST_REPORT_SIZE);
	uint64_t answer = weightrose_report(schedule.bytes, schedule.length, book.bytes, book.length,
					    room.bytes, room.length);

	expect(weightrose_refusal_of(answer) == WEIGHTROSE_ACCEPTED, "a book was refused");
	room.length = weightrose_length_of(answer);
	return room;
}

/* The same under the published schedule. */
static struct block
report_of(struct block book)
{
	struct block schedule = new_schedule();
	struct block report = report_under(schedule, book);

	free(schedule.bytes);
	return report;
}

static void
expect_same(struct block one, struct block other, const char *what)
{
	expect(one.length == other.length && memcmp(one.bytes, other.bytes, one.length) == 0, what);
}

/* Asks for a conversion into a buffer of that length and expects the refusal, its place and an
 * untouched buffer. */
static void
expect_not_converted(struct block book, size_t room, enum weightrose_refusal refusal, uint32_t place)
{
	struct block converted = new_block(room);
	uint64_t answer;

	memset(converted.bytes, 0xa5, converted.length);
	answer = weightrose_convert(book.bytes, book.length, converted.bytes, converted.length);
	expect_refused("not converted,", answer, refusal, place, converted);
	free(converted.bytes);
}

/* The book as version 2, in a block of its length; the caller frees it. */
static struct block
new_converted(struct block book)
{
	struct block converted = new_block(book.length);
	uint64_t answer = weightrose_convert(book.bytes, book.length,
					     converted.bytes, converted.length);

	printf("C-13: %s\n", weightrose_refusal_of(answer) == WEIGHTROSE_ACCEPTED ?
	       "The book was converted." : sentence(weightrose_refusal_of(answer)));
	if (weightrose_refusal_of(answer) != WEIGHTROSE_ACCEPTED)
		exit(EXIT_FAILURE);
	expect(weightrose_length_of(answer) == book.length, "C-13: the converted book's length");
	return converted;
}

/* Books each asset of a book of version 2 at its desk. */
static void
book_at_desks(struct block book, const struct ledger *ledger, const uint8_t *asset_desks)
{
	uint8_t *asset = book.bytes + WEIGHTROSE_BOOK_HEADER_SIZE +
			 ledger->counterparty_count * WEIGHTROSE_COUNTERPARTY_SIZE;
	size_t i;

	for (i = 0; i < ledger->asset_count; i++)
		asset[i * WEIGHTROSE_ASSET_SIZE + 7] = asset_desks[i];
}

/*
 * A ledger moves to version 2: it converts its book, sees that the report is the same, and books
 * each asset at its desk from then on. The old program's book is had again from the new one.
 */
static void
desks(void)
{
	static const struct counterparty names[] = { { NO_PARENT, 0, UNGRADED, 0 },
						     { NO_PARENT, BANK, 1, 0 } };
	static const struct asset assets[] = {
		{ ANY_OTHER, 1, 300000000, 0, 2, NO_ENTRY, 0 },
		{ TRADED, 1, 300000000, 0, 0, NO_ENTRY, 0 },
	};
	static const struct mitigant cash[] = { { CASH, 31, 2, 30000000 }, { CASH, 31, 2, 20000000 } };
	static const uint8_t asset_desks[] = { 7, 255 };
	static const uint8_t no_desks[] = { 0, 0 };
	struct ledger ledger = ledger_of(names, COUNT(names), assets, COUNT(assets));
	struct block old, converted, old_report, new_report_block;

	ledger.mitigants = cash;
	ledger.mitigant_count = COUNT(cash);
	old = new_book(&ledger);
	converted = new_converted(old);
	old_report = report_of(old);
	new_report_block = report_of(converted);
	expect_same(old_report, new_report_block, "C-13: the converted book has another report");
	free(new_report_block.bytes);

	book_at_desks(converted, &ledger, asset_desks);
	new_report_block = report_of(converted);
	expect_same(old_report, new_report_block, "C-13: desks changed the report");
	print_report(new_report_block.bytes);
	free(new_report_block.bytes);

	/* Version 2 is not converted again, and a byte less is too little. */
	expect_not_converted(converted, converted.length, WEIGHTROSE_BOOK_VERSION, 0);
	expect_not_converted(old, old.length - 1, WEIGHTROSE_BUFFER_SHORT, 0);

	/* Back to version 1: its number, and counts of two bytes. */
	converted.bytes[4] = 1;
	book_at_desks(converted, &ledger, no_desks);
	expect_same(converted, old, "C-13: the old book was not rebuilt");
	free(old.bytes);
	free(converted.bytes);
	free(old_report.bytes);
}

/* 255 mitigants of one asset, and one more, which a byte cannot count. */
static void
many_mitigants(void)
{
	static const struct counterparty names[] = { { NO_PARENT, BANK, 1, 0 } };
	static struct mitigant cash[256];
	struct asset assets[] = {
		{ ANY_OTHER, 1, 1, 0, 0, NO_ENTRY, 0 },
		{ ANY_OTHER, 1, 1000, 0, 255, NO_ENTRY, 0 },
	};
	struct ledger ledger = ledger_of(names, COUNT(names), assets, COUNT(assets));
	struct block book, converted;
	size_t i;

	for (i = 0; i < COUNT(cash); i++) {
		cash[i].form = CASH;
		cash[i].flags = 31;
		cash[i].counterparty = 1;
		cash[i].value = 3;
	}
	ledger.mitigants = cash;
	ledger.mitigant_count = 255;
	book = new_book(&ledger);
	converted = new_converted(book);
	free(book.bytes);
	free(converted.bytes);

	ledger.mitigant_count = 256;
	assets[1].mitigants = 256;
	book = new_book(&ledger);
	expect_not_converted(book, book.length, WEIGHTROSE_MANY_MITIGANTS, 2);
	expect_not_converted(book, 0, WEIGHTROSE_MANY_MITIGANTS, 2);
	free(book.bytes);
}

/* ---- Bills ---- */

/* A desk that is billed, and for what. */
struct bill {
	unsigned desk;
	uint64_t amount;
};

/* Asks for bills into a buffer of that length and expects the refusal and an untouched buffer. */
static void
expect_not_billed(struct block book, uint64_t rate, size_t room, enum weightrose_refusal refusal)
{
	struct block schedule = new_schedule();
	struct block bills = new_block(room);
	uint64_t answer;

	memset(bills.bytes, 0xa5, bills.length);
	answer = weightrose_bills(schedule.bytes, schedule.length, book.bytes, book.length, rate,
				  bills.bytes, bills.length);
	expect_refused("not billed,", answer, refusal, 0, bills);
	free(schedule.bytes);
	free(bills.bytes);
}

/* The bills of a book under a schedule, in a block of their length; the caller frees it. */
static struct block
new_bills(struct block schedule, struct block book, uint64_t rate)
{
	struct block bills = new_block(WEIGHTROSE_BILLS_SIZE);
	uint64_t answer = weightrose_bills(schedule.bytes, schedule.length, book.bytes, book.length,
					   rate, bills.bytes, bills.length);

	printf("C-14 at %" PRIu64 " ten-thousandths: %s\n", rate,
	       weightrose_refusal_of(answer) == WEIGHTROSE_ACCEPTED ?
	       "The desks were billed." : sentence(weightrose_refusal_of(answer)));
	if (weightrose_refusal_of(answer) != WEIGHTROSE_ACCEPTED)
		exit(EXIT_FAILURE);
	expect(weightrose_length_of(answer) == WEIGHTROSE_BILLS_SIZE, "C-14: the bills' length");
	return bills;
}

/* Bills a book, prints every desk that has a bill, and expects these desks, rising, and no other;
 * and that all bills together are what the charge of the book's report costs. */
static void
expect_bills(struct block book, uint64_t rate, const struct bill *expected, size_t count)
{
	struct block schedule = new_schedule();
	struct block report = report_under(schedule, book);
	struct block bills = new_bills(schedule, book, rate);
	uint64_t charge = weightrose_u64(report.bytes + WEIGHTROSE_HEADER_CHARGE);
	uint64_t sum = 0;
	unsigned desk;

	for (desk = 0; desk < WEIGHTROSE_DESKS; desk++) {
		uint64_t amount = weightrose_bill(bills.bytes, desk);

		sum += amount;
		if (amount == 0)
			continue;
		printf("  desk %u: %" PRIu64 "\n", desk, amount);
		expect(count > 0 && expected->desk == desk && expected->amount == amount,
		       "C-14: a bill");
		if (count > 0) {
			expected++;
			count--;
		}
	}
	expect(count == 0, "C-14: a desk was not billed");
	printf("  together %" PRIu64 " for a charge of %" PRIu64 "\n", sum, charge);
	expect(sum == charge * rate / 10000, "C-14: the bills do not add up to the charge's cost");
	free(schedule.bytes);
	free(report.bytes);
	free(bills.bytes);
}

/*
 * A ledger bills its desks: the two tiers of T2, each with an excess at a desk of its own, and the
 * reinsurers of T8, whose A3 excess goes to desk 0. Before it moved to version 2, all went there.
 */
static void
bills_by_desk(void)
{
	static const struct counterparty names[] = {
		{ NO_PARENT, 0, UNGRADED, 0 },
		{ NO_PARENT, 0, 1, 0 },
		{ NO_PARENT, 0, 1, 0 },
		{ NO_PARENT, 0, 1, 0 },
	};
	static const struct asset assets[] = {
		{ ANY_OTHER, 1, 300000000, 0, 0, NO_ENTRY, 0 },
		{ TRADED, 1, 300000000, 0, 0, NO_ENTRY, 0 },
		{ REINSURANCE, 2, 600000000, 600000000, 0, NO_ENTRY, 0 },
		{ REINSURANCE, 3, 600000000, 600000000, 0, NO_ENTRY, 0 },
		{ REINSURANCE, 4, 600000000, 600000000, 0, NO_ENTRY, 0 },
	};
	static const uint8_t asset_desks[] = { 7, 255, 30, 10, 30 };
	static const struct bill at_437[] = {
		{ 0, 10925000 }, { 7, 2185000 }, { 10, 4370000 }, { 30, 8740000 }, { 255, 2185000 },
	};
	static const struct bill all_at_437[] = { { 0, 28405000 } };
	static const struct bill at_most[] = {
		{ 0, 25000000 }, { 7, 5000000 }, { 10, 10000000 }, { 30, 20000000 }, { 255, 5000000 },
	};
	struct ledger ledger = ledger_of(names, COUNT(names), assets, COUNT(assets));
	struct block old = new_book(&ledger);
	struct block book = new_converted(old);

	expect_bills(old, 437, all_at_437, COUNT(all_at_437));
	expect_bills(book, 437, all_at_437, COUNT(all_at_437));
	book_at_desks(book, &ledger, asset_desks);
	expect_bills(book, 437, at_437, COUNT(at_437));
	expect_bills(book, WEIGHTROSE_MOST_COST_RATE, at_most, COUNT(at_most));
	expect_bills(book, 0, NULL, 0);

	expect_not_billed(book, WEIGHTROSE_MOST_COST_RATE + 1, WEIGHTROSE_BILLS_SIZE,
			  WEIGHTROSE_COST_RATE);
	expect_not_billed(book, UINT64_MAX, 0, WEIGHTROSE_COST_RATE);
	expect_not_billed(book, 437, WEIGHTROSE_BILLS_SIZE - 1, WEIGHTROSE_BUFFER_SHORT);
	expect_not_billed(book, 437, 0, WEIGHTROSE_BUFFER_SHORT);
	book.bytes[4] = 3;
	expect_not_billed(book, WEIGHTROSE_MOST_COST_RATE + 1, 0, WEIGHTROSE_BOOK_VERSION);
	free(old.bytes);
	free(book.bytes);
}

/* Three desks with 3,333, 3,333 and 3,334 cents above a limit: a cent at the third, and at 3
 * ten-thousandths 0, 1 and 2, where each cost rounded by itself would be 0, 0 and 1. */
static void
bills_rounded(void)
{
	static const struct counterparty names[] = { { NO_PARENT, 0, UNGRADED, 0 } };
	static const struct asset assets[] = {
		{ ANY_OTHER, 1, 250000000, 0, 0, NO_ENTRY, 0 },
		{ ANY_OTHER, 1, 3333, 0, 0, NO_ENTRY, 0 },
		{ ANY_OTHER, 1, 3333, 0, 0, NO_ENTRY, 0 },
		{ ANY_OTHER, 1, 3334, 0, 0, NO_ENTRY, 0 },
	};
	static const uint8_t asset_desks[] = { 200, 1, 2, 3 };
	static const struct bill at_1[] = { { 3, 1 } };
	static const struct bill at_3[] = { { 2, 1 }, { 3, 2 } };
	struct ledger ledger = ledger_of(names, COUNT(names), assets, COUNT(assets));
	struct block old = new_book(&ledger);
	struct block book = new_converted(old);

	book_at_desks(book, &ledger, asset_desks);
	expect_bills(book, 1, at_1, COUNT(at_1));
	expect_bills(book, 3, at_3, COUNT(at_3));
	free(old.bytes);
	free(book.bytes);
}

/* A longer buffer: the bytes behind the bills stay as they were. An empty one may have no address. */
static void
bills_in_other_buffers(void)
{
	struct block schedule = new_schedule();
	struct block book = new_book(&empty_ledger);
	struct block bills = new_block(WEIGHTROSE_BILLS_SIZE + 9);
	uint64_t answer;
	size_t i;

	memset(bills.bytes, 0xa5, bills.length);
	answer = weightrose_bills(schedule.bytes, schedule.length, book.bytes, book.length, 437,
				  bills.bytes, bills.length);
	expect(answer == WEIGHTROSE_BILLS_SIZE, "C-14: an empty book was not billed");
	for (i = 0; i < bills.length; i++)
		expect(bills.bytes[i] == (i < WEIGHTROSE_BILLS_SIZE ? 0 : 0xa5),
		       "C-14: a byte of an empty book's bills, or behind them");
	expect(weightrose_refusal_of(weightrose_bills(schedule.bytes, schedule.length, book.bytes,
						      book.length, 437, NULL, 0)) ==
	       WEIGHTROSE_BUFFER_SHORT, "C-14: no buffer at all");
	expect(weightrose_refusal_of(weightrose_bills(NULL, 0, NULL, 0, UINT64_MAX, NULL, 0)) ==
	       WEIGHTROSE_SCHEDULE_LENGTH, "C-14: nothing at all");
	free(schedule.bytes);
	free(book.bytes);
	free(bills.bytes);
}

/* ---- Schedules of version 2 ---- */

enum { ROW_H = 5 };
enum { VAF_RATE = 0, BASE_RATE = 2, RATES = 3 };

/* Where a rate of a schedule stands: the row counted from c, the rate from the VAF rate, both
 * from 0. */
static uint8_t *
rate_at(struct block schedule, size_t row, size_t rate)
{
	return schedule.bytes + WEIGHTROSE_SCHEDULE_HEADER_SIZE +
	       row * WEIGHTROSE_SCHEDULE_ROW_SIZE + 2 * rate;
}

/* The published schedule in ten-thousandths: version 2, and ten times each rate. */
static struct block
new_fine_schedule(void)
{
	struct block schedule = new_schedule();
	size_t row, rate;

	expect(weightrose_u16(schedule.bytes + 4) == WEIGHTROSE_SCHEDULE_PER_MILLE,
	       "C-15: the published schedule's version");
	put_u16(schedule.bytes + 4, WEIGHTROSE_SCHEDULE_TEN_THOUSANDTHS);
	for (row = 0; row < WEIGHTROSE_SCHEDULE_ROWS; row++) {
		for (rate = 0; rate < RATES; rate++) {
			uint8_t *at = rate_at(schedule, row, rate);

			put_u16(at, (uint16_t)(10 * weightrose_u16(at)));
		}
	}
	return schedule;
}

/* Both schedules give the same report and the same bills. */
static void
expect_same_under(struct block one, struct block other, struct block book)
{
	struct block one_report = report_under(one, book);
	struct block other_report = report_under(other, book);
	struct block one_bills = new_bills(one, book, 437);
	struct block other_bills = new_bills(other, book, 437);

	expect_same(one_report, other_report, "C-15: another report");
	expect_same(one_bills, other_bills, "C-15: other bills");
	free(one_report.bytes);
	free(other_report.bytes);
	free(one_bills.bytes);
	free(other_bills.bytes);
}

/* The bounds of either version, and the first version that is not known. */
static void
fine_schedule_refusals(struct block book)
{
	struct block schedule = new_fine_schedule();

	put_u16(rate_at(schedule, ROW_H, BASE_RATE), WEIGHTROSE_MOST_RATE_TEN_THOUSANDTHS);
	free(report_under(schedule, book).bytes);
	put_u16(rate_at(schedule, ROW_H, BASE_RATE), WEIGHTROSE_MOST_RATE_TEN_THOUSANDTHS + 1);
	expect_refusal(schedule, book, WEIGHTROSE_MOST_REPORT_SIZE, WEIGHTROSE_SCHEDULE_RATES, 0);
	put_u16(schedule.bytes + 4, 3);
	expect_refusal(schedule, book, WEIGHTROSE_MOST_REPORT_SIZE, WEIGHTROSE_SCHEDULE_VERSION, 0);
	free(schedule.bytes);

	schedule = new_schedule();
	put_u16(rate_at(schedule, ROW_H, BASE_RATE), WEIGHTROSE_MOST_RATE_PER_MILLE);
	free(report_under(schedule, book).bytes);
	put_u16(rate_at(schedule, ROW_H, BASE_RATE), WEIGHTROSE_MOST_RATE_PER_MILLE + 1);
	expect_refusal(schedule, book, WEIGHTROSE_MOST_REPORT_SIZE, WEIGHTROSE_SCHEDULE_RATES, 0);
	free(schedule.bytes);
}

/*
 * A ledger with an adjusted rate of 4.37 per cent for item (h) (paragraph 47), which per mille
 * cannot say: it moves its schedule to version 2, sees that T2's report and bills are the same, and
 * sets the rate. The limit of the second line is then 437,000,000 of a VAF of 10,000,000,000, in
 * place of 500,000,000; 250,000,000 of it stand in the first.
 */
static void
rates(void)
{
	static const struct line lines[] = {
		{ 1, WEIGHTROSE_TIER_I, T2_TIERS, { 300000000, 250000000, 250000000, 50000000 } },
		{ 1, WEIGHTROSE_TIER_H, T2_TIERS, { 300000000, 437000000, 187000000, 113000000 } },
	};
	struct ledger ledger = t2_ledger();
	struct block book = new_book(&ledger);
	struct block per_mille = new_schedule();
	struct block schedule = new_fine_schedule();
	struct block report;

	expect_same_under(per_mille, schedule, book);
	put_u16(rate_at(schedule, ROW_H, VAF_RATE), 437);
	report = report_under(schedule, book);
	printf("C-15 at 437 ten-thousandths:\n");
	print_report(report.bytes);
	expect_line("C-15: the first line", weightrose_line(report.bytes, 0), &lines[0]);
	expect_line("C-15: the second line", weightrose_line(report.bytes, 1), &lines[1]);
	expect(weightrose_u64(report.bytes + WEIGHTROSE_HEADER_CHARGE) == 163000000,
	       "C-15: the charge");
	fine_schedule_refusals(book);
	free(book.bytes);
	free(per_mille.bytes);
	free(schedule.bytes);
	free(report.bytes);
}

/* ---- Questions of dealers ---- */

/* A question, and the answer that is expected. */
struct question {
	uint16_t counterparty;
	uint8_t kind;
	uint64_t more;
};

/* The bytes of a list; the caller frees them. */
static struct block
new_list(const struct question *questions, size_t count)
{
	struct block list = new_block(WEIGHTROSE_QUESTION_SIZE * count);
	unsigned i;

	for (i = 0; i < count; i++)
		weightrose_ask(list.bytes, i, questions[i].counterparty, questions[i].kind);
	return list;
}

/* Asks with a buffer of that length and expects the refusal and an untouched buffer. */
static void
expect_not_answered(struct block book, struct block list, size_t room,
		    enum weightrose_refusal refusal)
{
	struct block schedule = new_schedule();
	struct block answers = new_block(room);
	uint64_t answer;

	memset(answers.bytes, 0xa5, answers.length);
	answer = weightrose_headroom(schedule.bytes, schedule.length, book.bytes, book.length,
				     list.bytes, list.length, answers.bytes, answers.length);
	expect_refused("not answered,", answer, refusal, 0, answers);
	free(schedule.bytes);
	free(answers.bytes);
}

/* Asks all questions at once and each by itself, prints the answers, and expects these. */
static void
expect_answers(struct block book, const struct question *questions, size_t count)
{
	struct block schedule = new_schedule();
	struct block list = new_list(questions, count);
	struct block answers = new_block(WEIGHTROSE_ANSWER_SIZE * count);
	uint64_t answer = weightrose_headroom(schedule.bytes, schedule.length, book.bytes,
					      book.length, list.bytes, list.length,
					      answers.bytes, answers.length);
	unsigned i;

	printf("C-16: %s\n", weightrose_refusal_of(answer) == WEIGHTROSE_ACCEPTED ?
	       "The dealers were answered." : sentence(weightrose_refusal_of(answer)));
	if (weightrose_refusal_of(answer) != WEIGHTROSE_ACCEPTED)
		exit(EXIT_FAILURE);
	expect(weightrose_length_of(answer) == answers.length, "C-16: the answers' length");
	for (i = 0; i < count; i++) {
		uint64_t more = weightrose_answer(answers.bytes, i);
		struct block one = new_list(&questions[i], 1);
		struct block single = new_block(WEIGHTROSE_ANSWER_SIZE);

		printf("  kind %u with %u: %" PRIu64 " more\n", (unsigned)questions[i].kind,
		       (unsigned)questions[i].counterparty, more);
		expect(more == questions[i].more, "C-16: an answer");
		expect(weightrose_headroom(schedule.bytes, schedule.length, book.bytes, book.length,
					   one.bytes, one.length, single.bytes, single.length) ==
		       WEIGHTROSE_ANSWER_SIZE && weightrose_answer(single.bytes, 0) == more,
		       "C-16: a question sent singly has another answer");
		free(one.bytes);
		free(single.bytes);
	}
	free(schedule.bytes);
	free(list.bytes);
	free(answers.bytes);
}

/* A name, its child, which is a bank, another bank, and the home government. The name's two assets
 * leave 50,000,000 in tier i and 150,000,000 in tier h. */
static struct ledger
dealers_ledger(void)
{
	static const struct counterparty names[] = {
		{ NO_PARENT, 0, UNGRADED, 0 },
		{ 1, BANK, 1, 0 },
		{ NO_PARENT, BANK, 1, 0 },
		{ NO_PARENT, HOME_GOVERNMENT, 1, 0 },
	};
	static const struct asset assets[] = {
		{ ANY_OTHER, 1, 200000000, 0, 0, NO_ENTRY, 0 },
		{ TRADED, 1, 150000000, 0, 0, NO_ENTRY, 0 },
	};

	return ledger_of(names, COUNT(names), assets, COUNT(assets));
}

/*
 * Dealers ask what more they may buy; the ledger buys as much and sees that the charge stays, then
 * one cent more and sees that it rises. With T2's excesses nothing is left in its two tiers.
 */
static void
dealers(void)
{
	static const struct question list[] = {
		{ 1, ANY_OTHER, 50000000 },
		{ 1, TRADED, 150000000 },
		{ 2, LOAN, 150000000 },
		{ 2, DEPOSIT, UINT64_C(4650000000) },
		{ 3, DEPOSIT, UINT64_C(5000000000) },
		{ 3, BANK_BILL, UINT64_C(2500000000) },
		{ 4, GOVERNMENT_GUARANTEED, WEIGHTROSE_MOST_AMOUNT },
		{ 1, ANY_OTHER, 50000000 },
	};
	static const struct question of_t2[] = {
		{ 1, ANY_OTHER, 0 }, { 1, TRADED, 0 }, { 1, DEPOSIT, 0 },
	};
	struct asset bought[] = {
		{ ANY_OTHER, 1, 200000000, 0, 0, NO_ENTRY, 0 },
		{ TRADED, 1, 150000000, 0, 0, NO_ENTRY, 0 },
		{ LOAN, 2, 150000000, 0, 0, NO_ENTRY, 0 },
	};
	struct ledger ledger = dealers_ledger();
	struct ledger t2_books = t2_ledger();
	struct block book = new_book(&ledger);

	expect_answers(book, list, COUNT(list));
	expect_answers(book, NULL, 0);
	free(book.bytes);
	expect_charge("C-16, before", &ledger, 0);
	ledger.assets = bought;
	ledger.asset_count = COUNT(bought);
	expect_charge("C-16, as much bought", &ledger, 0);
	bought[2].value++;
	expect_charge("C-16, one cent more", &ledger, 1);

	book = new_book(&t2_books);
	expect_answers(book, of_t2, COUNT(of_t2));
	free(book.bytes);
}

/* Lists that are turned back: bytes over, places and kinds out of range, too many questions; and
 * buffers that are too short. */
static void
dealers_refused(void)
{
	static const struct question bad[] = {
		{ 0, ANY_OTHER, 0 }, { 5, ANY_OTHER, 0 }, { UINT16_MAX, ANY_OTHER, 0 },
		{ 1, 0, 0 }, { 1, REINSURANCE, 0 }, { 1, 12, 0 }, { 1, UINT8_MAX, 0 },
	};
	static const struct question good = { 4, ANY_OTHER, 0 };
	static const size_t bad_lengths[] = { 1, 2, 4, 601, 602, 603 };
	static struct question many[WEIGHTROSE_MOST_QUESTIONS + 1];
	struct ledger ledger = dealers_ledger();
	struct block book = new_book(&ledger);
	struct block list;
	size_t i;

	for (i = 0; i < COUNT(bad); i++) {
		list = new_list(&bad[i], 1);
		expect_not_answered(book, list, WEIGHTROSE_ANSWER_SIZE, WEIGHTROSE_QUESTIONS);
		expect_not_answered(book, list, 0, WEIGHTROSE_QUESTIONS);
		free(list.bytes);
	}
	for (i = 0; i < COUNT(many); i++)
		many[i] = good;
	list = new_list(many, COUNT(many));
	for (i = 0; i < COUNT(bad_lengths); i++) {
		struct block cut = new_block(bad_lengths[i]);

		memcpy(cut.bytes, list.bytes, cut.length);
		expect_not_answered(book, cut, WEIGHTROSE_ANSWER_SIZE * COUNT(many),
				    WEIGHTROSE_QUESTIONS);
		free(cut.bytes);
	}
	free(list.bytes);

	list = new_list(many, WEIGHTROSE_MOST_QUESTIONS);
	expect_not_answered(book, list, WEIGHTROSE_MOST_ANSWERS_SIZE - 1, WEIGHTROSE_ANSWERS_SHORT);
	free(list.bytes);
	list = new_list(&good, 1);
	expect_not_answered(book, list, WEIGHTROSE_ANSWER_SIZE - 1, WEIGHTROSE_ANSWERS_SHORT);
	expect_not_answered(book, list, 0, WEIGHTROSE_ANSWERS_SHORT);
	book.bytes[4] = 3;
	expect_not_answered(book, list, 0, WEIGHTROSE_BOOK_VERSION);
	free(list.bytes);
	free(book.bytes);
}

/* As many questions as may be asked, into a longer buffer: the bytes behind the answers stay as
 * they were. Empty blocks may have no address. */
static void
dealers_in_other_buffers(void)
{
	static struct question questions[WEIGHTROSE_MOST_QUESTIONS];
	struct ledger ledger = dealers_ledger();
	struct block schedule = new_schedule();
	struct block book = new_book(&ledger);
	struct block answers = new_block(WEIGHTROSE_MOST_ANSWERS_SIZE + 9);
	struct block list;
	uint64_t answer;
	size_t i;

	for (i = 0; i < COUNT(questions); i++) {
		questions[i].counterparty = (uint16_t)(1 + i % 4);
		questions[i].kind = TRADED;
	}
	list = new_list(questions, COUNT(questions));
	memset(answers.bytes, 0xa5, answers.length);
	answer = weightrose_headroom(schedule.bytes, schedule.length, book.bytes, book.length,
				     list.bytes, list.length, answers.bytes, answers.length);
	expect(answer == WEIGHTROSE_MOST_ANSWERS_SIZE, "C-16: the most questions");
	for (i = 0; i < COUNT(questions); i++)
		expect(weightrose_answer(answers.bytes, (unsigned)i) ==
		       (i % 4 < 2 ? 150000000 : 500000000), "C-16: one of the most answers");
	for (i = WEIGHTROSE_MOST_ANSWERS_SIZE; i < answers.length; i++)
		expect(answers.bytes[i] == 0xa5, "C-16: a byte behind the answers");
	expect(weightrose_headroom(schedule.bytes, schedule.length, book.bytes, book.length,
				   NULL, 0, NULL, 0) == 0, "C-16: no question and no buffer");
	expect(weightrose_refusal_of(weightrose_headroom(schedule.bytes, schedule.length, book.bytes,
							 book.length, list.bytes, list.length,
							 NULL, 0)) == WEIGHTROSE_ANSWERS_SHORT,
	       "C-16: no buffer at all");
	expect(weightrose_refusal_of(weightrose_headroom(NULL, 0, NULL, 0, NULL, 0, NULL, 0)) ==
	       WEIGHTROSE_SCHEDULE_LENGTH, "C-16: nothing at all");
	free(schedule.bytes);
	free(book.bytes);
	free(answers.bytes);
	free(list.bytes);
}

/* ---- Ties before rounding ---- */

/* Expects a report of these lines and no other. */
static void
expect_lines(const char *name, const struct ledger *ledger, const struct line *lines,
	     unsigned count, uint64_t charge)
{
	struct block report = new_report(name, ledger);
	unsigned made = weightrose_u16(report.bytes + WEIGHTROSE_HEADER_LINES);
	unsigned i;

	expect(made == count, name);
	for (i = 0; i < count && i < made; i++)
		expect_line(name, weightrose_line(report.bytes, i), &lines[i]);
	expect(weightrose_u64(report.bytes + WEIGHTROSE_HEADER_CHARGE) == charge, name);
	free(report.bytes);
}

/*
 * VAF 41, VAF' 40 and no capital base: tier i has a limit of 1.025 cents and tier i reinsurance one
 * of 1.000. Both print 1, and the second stands first. With VAF' 41 they are equal before rounding
 * too, and stand by number.
 */
static void
near_tie(void)
{
	enum { TIERS = 1 << WEIGHTROSE_TIER_I | 1 << WEIGHTROSE_TIER_I_REINSURANCE };
	static const struct counterparty names[] = { { NO_PARENT, 0, UNGRADED, 0 } };
	static const struct asset assets[] = {
		{ ANY_OTHER, 1, 2, 0, 0, NO_ENTRY, 0 },
		{ REINSURANCE, 1, 0, 3, 0, NO_ENTRY, 0 },
	};
	static const struct line by_fraction[] = {
		{ 1, WEIGHTROSE_TIER_I_REINSURANCE, TIERS, { 3, 1, 1, 2 } },
		{ 1, WEIGHTROSE_TIER_I, TIERS, { 2, 1, 0, 2 } },
	};
	static const struct line by_number[] = {
		{ 1, WEIGHTROSE_TIER_I, TIERS, { 2, 1, 1, 1 } },
		{ 1, WEIGHTROSE_TIER_I_REINSURANCE, TIERS, { 3, 1, 0, 3 } },
	};
	struct ledger ledger = ledger_of(names, COUNT(names), assets, COUNT(assets));

	ledger.total_assets = 41;
	ledger.capital_base = 0;
	ledger.excluded_assets = 4;
	expect_lines("C-17", &ledger, by_fraction, COUNT(by_fraction), 4);
	ledger.excluded_assets = 3;
	expect_lines("C-17, equal before rounding", &ledger, by_number, COUNT(by_number), 4);
}

/* ---- Treaties with one reinsurer ---- */

/* The cents that the published schedule gives the tiers here. */
#define I_LIMIT UINT64_C(250000000)
#define E_LIMIT UINT64_C(2500000000)
#define C_LIMIT UINT64_C(2500000000)

/*
 * Two treaties of 101 and 99 cents with one reinsurer, of entry classes of their own, so that each
 * remainder has a line, and letters of credit of a bank, 101 cents each. Half of 200 may be covered:
 * of the first treaty 100, of the second its 99, and where both have a letter the first draws all.
 * Of a registered reinsurer either may be covered whole.
 */
static void
half_of_a_reinsurer(void)
{
	enum {
		I = 1 << WEIGHTROSE_TIER_I_REINSURANCE,
		E = 1 << WEIGHTROSE_TIER_E,
		C = 1 << WEIGHTROSE_TIER_C
	};
	static const struct mitigant letters[] = {
		{ LETTER, TERMS_OF_42, 2, 101 }, { LETTER, TERMS_OF_42, 2, 101 },
	};
	static const struct line on_first[] = {
		{ 1, WEIGHTROSE_TIER_I_REINSURANCE, I | E, { 1, I_LIMIT, I_LIMIT, 0 } },
		{ 1, WEIGHTROSE_TIER_E, I | E, { 99, E_LIMIT, E_LIMIT - 1, 0 } },
		{ 2, WEIGHTROSE_TIER_C, C, { 100, C_LIMIT, C_LIMIT, 0 } },
	};
	static const struct line on_second[] = {
		{ 1, WEIGHTROSE_TIER_I_REINSURANCE, I, { 101, I_LIMIT, I_LIMIT, 0 } },
		{ 2, WEIGHTROSE_TIER_C, C, { 99, C_LIMIT, C_LIMIT, 0 } },
	};
	static const struct line on_registered[] = {
		{ 2, WEIGHTROSE_TIER_C, C, { 200, C_LIMIT, C_LIMIT, 0 } },
	};
	struct counterparty names[] = {
		{ NO_PARENT, 0, UNGRADED, 0 },
		{ NO_PARENT, BANK, 1, 0 },
	};
	struct asset treaties[] = {
		{ REINSURANCE, 1, 101, 101, 1, NO_ENTRY, 0 },
		{ REINSURANCE, 1, 99, 99, 0, ITEM_E, 0 },
	};
	struct ledger ledger = ledger_of(names, COUNT(names), treaties, COUNT(treaties));

	ledger.mitigants = letters;
	ledger.mitigant_count = 1;
	expect_lines("C-18, a letter on the first", &ledger, on_first, COUNT(on_first), 0);
	treaties[0].mitigants = 0;
	treaties[1].mitigants = 1;
	expect_lines("C-18, a letter on the second", &ledger, on_second, COUNT(on_second), 0);
	treaties[0].mitigants = 1;
	ledger.mitigant_count = 2;
	expect_lines("C-18, a letter on each", &ledger, on_first, COUNT(on_first), 0);
	names[0].kind = REGISTERED;
	expect_lines("C-18, a registered reinsurer", &ledger, on_registered, COUNT(on_registered), 0);
}

/* ---- Movements through the day ---- */

/* What the ledger holds, in its own records: the arrays that its ledger points to, and each asset's
 * desk. */
struct holdings {
	struct ledger ledger;
	struct asset assets[WEIGHTROSE_MOST_ASSETS];
	uint8_t desks[WEIGHTROSE_MOST_ASSETS];
	struct mitigant mitigants[WEIGHTROSE_MOST_MITIGANTS];
};

static void
hold(struct holdings *held, const struct asset *asset, uint8_t desk)
{
	held->assets[held->ledger.asset_count] = *asset;
	held->desks[held->ledger.asset_count] = desk;
	held->ledger.asset_count++;
}

/* Drops the asset at a place, from 1, and the mitigants that are its own. */
static void
drop(struct holdings *held, size_t place)
{
	size_t at = place - 1;
	size_t count = held->assets[at].mitigants;
	size_t first = 0;
	size_t i;

	for (i = 0; i < at; i++)
		first += held->assets[i].mitigants;
	held->ledger.asset_count--;
	held->ledger.mitigant_count -= count;
	for (i = at; i < held->ledger.asset_count; i++) {
		held->assets[i] = held->assets[i + 1];
		held->desks[i] = held->desks[i + 1];
	}
	for (i = first; i < held->ledger.mitigant_count; i++)
		held->mitigants[i] = held->mitigants[i + count];
}

/* A day: what is held, and the book of that version in a buffer of its own, with another one for
 * reports. */
struct day {
	struct holdings *held;
	uint8_t version;
	struct block schedule, book, report;
};

/* The book of what is held now, made afresh. */
static struct block
book_afresh(const struct day *day)
{
	struct block book = new_book(&day->held->ledger);

	put_u16(book.bytes + 4, day->version);
	if (day->version == 2)
		book_at_desks(book, &day->held->ledger, day->held->desks);
	return book;
}

static struct block
new_copy(struct block block)
{
	struct block copy = new_block(block.length);

	memcpy(copy.bytes, block.bytes, block.length);
	return copy;
}

/* The start of a day with these records, each asset at the desk of its place: a buffer with the book
 * and so many bytes more, all of them 0xa5, and the largest buffer for reports. */
static struct day
new_day(const struct ledger *start, uint8_t version, size_t more)
{
	struct day day;
	struct block book;
	size_t i;

	day.held = (struct holdings *)malloc(sizeof(*day.held));
	if (!day.held)
		abort();
	day.held->ledger = *start;
	day.held->ledger.assets = day.held->assets;
	day.held->ledger.asset_count = 0;
	day.held->ledger.mitigants = day.held->mitigants;
	for (i = 0; i < start->asset_count; i++)
		hold(day.held, &start->assets[i], (uint8_t)(i + 1));
	for (i = 0; i < start->mitigant_count; i++)
		day.held->mitigants[i] = start->mitigants[i];
	day.version = version;
	day.schedule = new_schedule();
	book = book_afresh(&day);
	day.book = new_block(book.length + more);
	memset(day.book.bytes, 0xa5, day.book.length);
	memcpy(day.book.bytes, book.bytes, book.length);
	day.report = new_block(WEIGHTROSE_MOST_REPORT_SIZE);
	free(book.bytes);
	return day;
}

static void
end_day(struct day day)
{
	free(day.held);
	free(day.schedule.bytes);
	free(day.book.bytes);
	free(day.report.bytes);
}

/* Takes another block for one of the day's, and frees the old one. */
static void
lend(struct block *old, struct block other)
{
	free(old->bytes);
	*old = other;
}

/* An asset's record as that day's version has it. */
static struct block
new_record(const struct day *day, const struct asset *asset, uint8_t desk)
{
	struct block record = new_block(WEIGHTROSE_ASSET_SIZE);

	put_asset(record.bytes, asset);
	if (day->version == 2)
		record.bytes[7] = desk;
	return record;
}

/* The two movements, each into a report's buffer full of 0xa5. */

static uint64_t
add(const struct day *day, struct block record)
{
	memset(day->report.bytes, 0xa5, day->report.length);
	return weightrose_add(day->schedule.bytes, day->schedule.length, record.bytes, record.length,
			      day->book.bytes, day->book.length, day->report.bytes,
			      day->report.length);
}

static uint64_t
take_away(const struct day *day, uint64_t place)
{
	memset(day->report.bytes, 0xa5, day->report.length);
	return weightrose_remove(day->schedule.bytes, day->schedule.length, place, day->book.bytes,
				 day->book.length, day->report.bytes, day->report.length);
}

/* Expects the book and the report that are made afresh of what is held now, at the start of their
 * buffers, and behind them the bytes from before the movement, to the last. */
static void
expect_afresh(const struct day *day, struct block book_before, uint64_t answer)
{
	struct block book = book_afresh(day);
	struct block report = report_under(day->schedule, book);
	struct block room = new_block(day->report.length);

	printf("  %" PRIu64 " assets, %" PRIu64 " mitigants, charge %" PRIu64 "\n",
	       (uint64_t)day->held->ledger.asset_count, (uint64_t)day->held->ledger.mitigant_count,
	       weightrose_u64(report.bytes + WEIGHTROSE_HEADER_CHARGE));
	if (book.length > book_before.length || report.length > room.length)
		abort();
	expect(answer == report.length, "C-19: a movement's answer");
	expect(weightrose_book_length(day->book.bytes) == book.length, "C-19: the book's length");
	memcpy(book_before.bytes, book.bytes, book.length);
	expect_same(day->book, book_before, "C-19: a byte of the book, or behind it");
	memset(room.bytes, 0xa5, room.length);
	memcpy(room.bytes, report.bytes, report.length);
	expect_same(day->report, room, "C-19: a byte of the report, or behind it");
	free(book.bytes);
	free(report.bytes);
	free(room.bytes);
}

static void
expect_added(const struct day *day, const struct asset *asset, uint8_t desk)
{
	struct block before = new_copy(day->book);
	struct block record = new_record(day, asset, desk);
	uint64_t answer = add(day, record);

	printf("C-19: kind %u with %u added\n", (unsigned)asset->kind, (unsigned)asset->counterparty);
	hold(day->held, asset, desk);
	expect_afresh(day, before, answer);
	free(before.bytes);
	free(record.bytes);
}

static void
expect_removed(const struct day *day, size_t place)
{
	struct block before = new_copy(day->book);
	uint64_t answer = take_away(day, place);

	printf("C-19: asset %u taken away\n", (unsigned)place);
	drop(day->held, place);
	expect_afresh(day, before, answer);
	free(before.bytes);
}

/* Expects the refusal, its place and both buffers as they were. */

static void
expect_record_refused(const struct day *day, struct block record, enum weightrose_refusal refusal,
		      uint32_t place)
{
	struct block before = new_copy(day->book);
	uint64_t answer = add(day, record);

	expect_refused("not added,", answer, refusal, place, day->report);
	expect_same(day->book, before, "C-19: a refused addition changed the book's buffer");
	free(before.bytes);
}

static void
expect_not_added(const struct day *day, const struct asset *asset, enum weightrose_refusal refusal,
		 uint32_t place)
{
	struct block record = new_record(day, asset, 0);

	expect_record_refused(day, record, refusal, place);
	free(record.bytes);
}

static void
expect_not_removed(const struct day *day, uint64_t place, enum weightrose_refusal refusal,
		   uint32_t record)
{
	struct block before = new_copy(day->book);
	uint64_t answer = take_away(day, place);

	expect_refused("not taken away,", answer, refusal, record, day->report);
	expect_same(day->book, before, "C-19: a refused removal changed the book's buffer");
	free(before.bytes);
}

/* The charge that the last movement of a day has written. */
static void
expect_charge_now(const struct day *day, uint64_t charge)
{
	expect(weightrose_u64(day->report.bytes + WEIGHTROSE_HEADER_CHARGE) == charge,
	       "C-19: the charge after a movement");
}

/* A name with two assets and a bank with a deposit, each asset with cash of that bank: two, one and
 * one. The name has 250,000,000 in tier i, all that its limit allows, and 190,000,000 in tier h. */
static struct ledger
morning_ledger(void)
{
	static const struct counterparty names[] = { { NO_PARENT, 0, UNGRADED, 0 },
						     { NO_PARENT, BANK, 1, 0 } };
	static const struct asset assets[] = {
		{ ANY_OTHER, 1, 300000000, 0, 2, NO_ENTRY, 0 },
		{ TRADED, 1, 200000000, 0, 1, NO_ENTRY, 0 },
		{ DEPOSIT, 2, 1000000000, 0, 1, NO_ENTRY, 0 },
	};
	static const struct mitigant cash[] = {
		{ CASH, 31, 2, 30000000 },
		{ CASH, 31, 2, 20000000 },
		{ CASH, 31, 2, 10000000 },
		{ CASH, 31, 2, 5000000 },
	};
	struct ledger ledger = ledger_of(names, COUNT(names), assets, COUNT(assets));

	ledger.mitigants = cash;
	ledger.mitigant_count = COUNT(cash);
	return ledger;
}

static const struct asset purchase = { TRADED, 1, 400000000, 0, 0, NO_ENTRY, 0 };

/*
 * A day of a ledger: it buys, and tier h has 590,000,000, where tier i leaves 250,000,000 of a limit
 * of 500,000,000; what was in tier i goes with its cash, and 90,000,000 are left above that limit;
 * what was bought goes again, then all the rest. Refusals in between change nothing. The empty book
 * takes assets again, and another day starts with a larger total, which gives tier h a limit of
 * 540,000,000.
 */
static void
movements(uint8_t version)
{
	struct ledger start = morning_ledger();
	struct day day = new_day(&start, version, 5 + WEIGHTROSE_ASSET_SIZE);

	expect_added(&day, &purchase, 200);
	expect_charge_now(&day, 340000000);
	expect_not_removed(&day, 0, WEIGHTROSE_MOVEMENT, 0);
	expect_not_removed(&day, 5, WEIGHTROSE_MOVEMENT, 0);
	expect_not_removed(&day, UINT64_C(0x10001), WEIGHTROSE_MOVEMENT, 0);
	expect_not_removed(&day, UINT64_C(0x100000001), WEIGHTROSE_MOVEMENT, 0);
	expect_not_removed(&day, UINT64_MAX, WEIGHTROSE_MOVEMENT, 0);
	expect_removed(&day, 1);
	expect_charge_now(&day, 90000000);
	expect_not_removed(&day, 4, WEIGHTROSE_MOVEMENT, 0);
	expect_removed(&day, 3);
	expect_charge_now(&day, 0);
	expect_removed(&day, 2);
	expect_removed(&day, 1);
	expect(weightrose_book_length(day.book.bytes) ==
	       WEIGHTROSE_BOOK_HEADER_SIZE + 2 * WEIGHTROSE_COUNTERPARTY_SIZE,
	       "C-19: more than two counterparties in the evening");
	expect_not_removed(&day, 1, WEIGHTROSE_MOVEMENT, 0);
	expect_added(&day, &purchase, 0);
	expect_added(&day, &purchase, 255);
	expect_charge_now(&day, 300000000);

	/* The total follows by the ledger's own hand. */
	day.held->ledger.total_assets += 800000000;
	put_u64(day.book.bytes + 16, day.held->ledger.total_assets);
	expect_added(&day, &purchase, 1);
	expect_charge_now(&day, 660000000);
	end_day(day);
}

/* Each place of the morning's book by itself; and what was added goes again, and leaves the book's
 * old bytes. */
static void
there_and_back(uint8_t version)
{
	struct ledger start = morning_ledger();
	struct day day;
	struct block old;
	size_t place;

	for (place = 1; place <= start.asset_count; place++) {
		day = new_day(&start, version, 0);
		expect_removed(&day, place);
		end_day(day);
	}
	day = new_day(&start, version, WEIGHTROSE_ASSET_SIZE);
	old = book_afresh(&day);
	expect_added(&day, &purchase, 9);
	expect(memcmp(day.book.bytes, old.bytes, old.length) != 0, "C-19: nothing was added");
	expect_removed(&day, start.asset_count + 1);
	expect(memcmp(day.book.bytes, old.bytes, old.length) == 0,
	       "C-19: the old book was not had again");
	free(old.bytes);
	end_day(day);
}

/* Records of other lengths: refused before anything is asked of what they hold or would need, and
 * after the book as it stands. */
static void
records_of_other_lengths(void)
{
	static const size_t lengths[] = { 0, 1, WEIGHTROSE_ASSET_SIZE - 1, WEIGHTROSE_ASSET_SIZE + 1,
					  2 * WEIGHTROSE_ASSET_SIZE };
	const struct block none = { NULL, 0 };
	struct ledger start = morning_ledger();
	struct day day = new_day(&start, 1, 0);
	size_t i;

	lend(&day.report, new_block(0));
	for (i = 0; i < COUNT(lengths); i++) {
		struct block record = new_block(lengths[i]);

		memset(record.bytes, 0xff, record.length);
		expect_record_refused(&day, record, WEIGHTROSE_MOVEMENT, 0);
		free(record.bytes);
	}
	expect_record_refused(&day, none, WEIGHTROSE_MOVEMENT, 0);
	day.book.bytes[4] = 3;
	expect_record_refused(&day, none, WEIGHTROSE_BOOK_VERSION, 0);
	expect_not_removed(&day, 0, WEIGHTROSE_BOOK_VERSION, 0);
	day.schedule.bytes[4] = 3;
	expect_record_refused(&day, none, WEIGHTROSE_SCHEDULE_VERSION, 0);
	expect_not_removed(&day, 0, WEIGHTROSE_SCHEDULE_VERSION, 0);
	end_day(day);
}

/* Records that the book with them would be refused for, by its number and at the new place, even
 * where neither buffer has room; the first one counts a mitigant as its own besides. */
static void
records_refused(uint8_t version)
{
	static const struct asset nobodys = { TRADED, 0, 1, 0, 1, NO_ENTRY, 0 };
	static const struct asset too_much = { TRADED, 1, WEIGHTROSE_MOST_AMOUNT + 1, 0, 0,
					       NO_ENTRY, 0 };
	static const struct asset retrocession = { REINSURANCE, 1, 5, 5, 0, RETROCESSION, 0 };
	static const struct asset counted = { TRADED, 1, 1, 0, 1, NO_ENTRY, 0 };
	static const struct asset counted_256 = { TRADED, 1, 1, 0, 256, NO_ENTRY, 0 };
	static const struct asset over_total = { REINSURANCE, 1, UINT64_C(10000000001), 0, 0,
						 NO_ENTRY, 0 };
	static const struct asset over_most = { REINSURANCE, 1, 0, WEIGHTROSE_MOST_AMOUNT, 0,
						NO_ENTRY, 0 };
	struct ledger start = morning_ledger();
	struct day day = new_day(&start, version, 0);

	lend(&day.report, new_block(0));
	expect_not_added(&day, &nobodys, WEIGHTROSE_ASSET, 4);
	expect_not_added(&day, &too_much, WEIGHTROSE_ASSET, 4);
	expect_not_added(&day, &counted, WEIGHTROSE_MITIGANT_COUNTS, 0);
	expect_not_added(&day, &retrocession, WEIGHTROSE_SPECIALIST_ENTRY, 4);
	expect_not_added(&day, &over_total, WEIGHTROSE_REINSURANCE_VALUES, 0);
	expect_not_added(&day, &over_most, WEIGHTROSE_STRESSED_ASSETS, 0);
	end_day(day);

	/* Byte 7 is of the count in version 1, and a desk in version 2. */
	day = new_day(&start, version, WEIGHTROSE_ASSET_SIZE);
	if (version == 1)
		expect_not_added(&day, &counted_256, WEIGHTROSE_MITIGANT_COUNTS, 0);
	else
		expect_added(&day, &purchase, 1);
	end_day(day);
}

/* Treaties that cannot go: without the first one's stress of 10 less is left than the 11 that are
 * excluded, and without its value of the most the assets under stress are over the most. */
static void
removals_refused(void)
{
	static const struct counterparty names[] = { { NO_PARENT, 0, UNGRADED, 0 } };
	static const struct asset stressed[] = {
		{ REINSURANCE, 1, 5, 10, 0, NO_ENTRY, 0 },
		{ TRADED, 1, 5, 0, 0, NO_ENTRY, 0 },
	};
	static const struct asset valued[] = {
		{ REINSURANCE, 1, WEIGHTROSE_MOST_AMOUNT, 0, 0, NO_ENTRY, 0 },
		{ REINSURANCE, 1, 0, 1, 0, NO_ENTRY, 0 },
	};
	struct ledger start = ledger_of(names, COUNT(names), stressed, COUNT(stressed));
	struct day day;

	start.total_assets = 10;
	start.excluded_assets = 11;
	day = new_day(&start, 1, 0);
	expect_not_removed(&day, 1, WEIGHTROSE_STRESSED_ASSETS, 0);
	expect_removed(&day, 2);
	lend(&day.report, new_block(0));
	expect_not_removed(&day, 1, WEIGHTROSE_STRESSED_ASSETS, 0);
	end_day(day);

	start.assets = valued;
	start.total_assets = WEIGHTROSE_MOST_AMOUNT;
	start.excluded_assets = 0;
	day = new_day(&start, 1, 0);
	expect_not_removed(&day, 1, WEIGHTROSE_STRESSED_ASSETS, 0);
	expect_removed(&day, 2);
	expect_removed(&day, 1);
	end_day(day);
}

/* A buffer that is a byte too short for the book with the new asset, or for its report, and one that
 * has just room. */
static void
buffers_of_a_day(void)
{
	enum { LINES = 4, LENGTH = WEIGHTROSE_REPORT_HEADER_SIZE + LINES * WEIGHTROSE_REPORT_LINE_SIZE };
	static const struct asset loan = { LOAN, 2, 1, 0, 0, NO_ENTRY, 0 };
	struct ledger start = morning_ledger();
	struct day day = new_day(&start, 1, WEIGHTROSE_ASSET_SIZE - 1);

	expect_not_added(&day, &loan, WEIGHTROSE_BUFFER_SHORT, 0);
	end_day(day);
	day = new_day(&start, 1, WEIGHTROSE_ASSET_SIZE);
	lend(&day.report, new_block(LENGTH - 1));
	expect_not_added(&day, &loan, WEIGHTROSE_BUFFER_SHORT, 0);
	lend(&day.report, new_block(0));
	expect_not_added(&day, &loan, WEIGHTROSE_BUFFER_SHORT, 0);
	lend(&day.report, new_block(LENGTH));
	expect_added(&day, &loan, 0);
	expect_not_added(&day, &loan, WEIGHTROSE_BUFFER_SHORT, 0);
	lend(&day.report, new_block(LENGTH - 1));
	expect_not_removed(&day, 3, WEIGHTROSE_BUFFER_SHORT, 0);
	expect_removed(&day, 4);
	end_day(day);
}

/*
 * A treaty without mitigants goes, half of what is left covers less of the other treaty, and what is
 * not covered of that one has a line of its own: the report of the shorter book is the longer one.
 */
static void
longer_report_of_less(void)
{
	enum { LENGTH = WEIGHTROSE_REPORT_HEADER_SIZE + 3 * WEIGHTROSE_REPORT_LINE_SIZE };
	static const struct counterparty names[] = { { NO_PARENT, 0, UNGRADED, 0 },
						     { NO_PARENT, BANK, 1, 0 },
						     { 1, 0, UNGRADED, 0 } };
	static const struct asset treaties[] = {
		{ REINSURANCE, 1, 101, 101, 0, NO_ENTRY, 0 },
		{ REINSURANCE, 1, 99, 99, 1, ITEM_E, 0 },
		{ REINSURANCE, 3, 5, 5, 0, NO_ENTRY, 0 },
	};
	static const struct mitigant letter[] = { { LETTER, TERMS_OF_42, 2, 101 } };
	struct ledger start = ledger_of(names, COUNT(names), treaties, COUNT(treaties));
	struct block report;
	struct day day;

	start.mitigants = letter;
	start.mitigant_count = COUNT(letter);
	day = new_day(&start, 1, 0);
	report = report_under(day.schedule, day.book);
	expect(report.length == LENGTH - WEIGHTROSE_REPORT_LINE_SIZE, "C-19: two lines of the start");
	lend(&day.report, new_block(LENGTH - 1));
	expect_not_removed(&day, 1, WEIGHTROSE_BUFFER_SHORT, 0);
	lend(&day.report, new_block(LENGTH));
	expect_removed(&day, 1);
	free(report.bytes);
	end_day(day);
}

/* Lends the first bytes of a book alone, and expects either movement to be refused. */
static void
expect_cut_refused(struct day *day, struct block book, size_t length,
		   enum weightrose_refusal refusal)
{
	lend(&day->book, new_block(length));
	memcpy(day->book.bytes, book.bytes, length);
	expect_not_added(day, &purchase, refusal, 0);
	expect_not_removed(day, 1, refusal, 0);
}

/* The book as it stands: longer than its buffer, and with a bad asset, which cannot be taken away
 * either. Empty blocks may have no address. */
static void
standing_books_refused(void)
{
	struct ledger start = morning_ledger();
	struct day day = new_day(&start, 1, 0);
	struct block book = new_copy(day.book);
	uint8_t *second = book.bytes + WEIGHTROSE_BOOK_HEADER_SIZE +
			  start.counterparty_count * WEIGHTROSE_COUNTERPARTY_SIZE +
			  WEIGHTROSE_ASSET_SIZE;

	expect_cut_refused(&day, book, 0, WEIGHTROSE_BOOK_LENGTH);
	expect_cut_refused(&day, book, WEIGHTROSE_BOOK_HEADER_SIZE - 1, WEIGHTROSE_BOOK_LENGTH);
	expect_cut_refused(&day, book, WEIGHTROSE_BOOK_HEADER_SIZE, WEIGHTROSE_BOOK_COUNTS);
	expect_cut_refused(&day, book, book.length - 1, WEIGHTROSE_BOOK_COUNTS);

	second[0] = 0; /* its kind */
	lend(&day.book, book);
	expect_not_added(&day, &purchase, WEIGHTROSE_ASSET, 2);
	expect_not_removed(&day, 2, WEIGHTROSE_ASSET, 2);
	expect_not_removed(&day, 0, WEIGHTROSE_ASSET, 2);
	expect(weightrose_refusal_of(weightrose_add(day.schedule.bytes, day.schedule.length, NULL, 0,
						    NULL, 0, NULL, 0)) == WEIGHTROSE_BOOK_LENGTH &&
	       weightrose_refusal_of(weightrose_remove(day.schedule.bytes, day.schedule.length, 1,
						       NULL, 0, NULL, 0)) == WEIGHTROSE_BOOK_LENGTH,
	       "C-19: no book at all");
	expect(weightrose_refusal_of(weightrose_add(NULL, 0, NULL, 0, NULL, 0, NULL, 0)) ==
	       WEIGHTROSE_SCHEDULE_LENGTH &&
	       weightrose_refusal_of(weightrose_remove(NULL, 0, 1, NULL, 0, NULL, 0)) ==
	       WEIGHTROSE_SCHEDULE_LENGTH, "C-19: nothing at all");
	end_day(day);
}

/* 899 assets of all kinds, with 1,500 mitigants and 500 counterparties in twenty groups. */
static struct ledger
nearly_largest_ledger(void)
{
	static struct counterparty names[WEIGHTROSE_MOST_COUNTERPARTIES];
	static struct asset assets[WEIGHTROSE_MOST_ASSETS - 1];
	static struct mitigant cash[WEIGHTROSE_MOST_MITIGANTS];
	struct ledger ledger = ledger_of(names, COUNT(names), assets, COUNT(assets));
	size_t i;

	for (i = 0; i < COUNT(names); i++) {
		names[i].parent = (uint16_t)(i < 20 ? 0 : 1 + i % 20);
		names[i].kind = (uint8_t)(i % 5);
		names[i].grade = (uint8_t)(i % 8);
	}
	for (i = 0; i < COUNT(assets); i++) {
		assets[i].kind = (uint8_t)(1 + i % 11);
		assets[i].counterparty = (uint16_t)(1 + i % COUNT(names));
		assets[i].value = 30000000 + i;
		assets[i].combination_stress = assets[i].kind == REINSURANCE ? 30000000 : 0;
		assets[i].mitigants = (uint16_t)(i < COUNT(cash) - COUNT(assets) ? 2 : 1);
	}
	for (i = 0; i < COUNT(cash); i++) {
		cash[i].form = CASH;
		cash[i].flags = 31;
		cash[i].counterparty = (uint16_t)(1 + i * 7 % COUNT(names));
		cash[i].value = 1000 + i;
	}
	ledger.mitigants = cash;
	ledger.mitigant_count = COUNT(cash);
	return ledger;
}

/* One more asset fills the largest buffer, and a 901st is refused, whatever its record. */
static void
largest_day(uint8_t version)
{
	static const struct asset kindless = { 0, 1, 1, 0, 0, NO_ENTRY, 0 };
	const struct block none = { NULL, 0 };
	struct ledger start = nearly_largest_ledger();
	struct day day = new_day(&start, version, WEIGHTROSE_ASSET_SIZE);

	expect(day.book.length == WEIGHTROSE_MOST_BOOK_SIZE, "C-19: the largest book's buffer");
	expect_not_added(&day, &kindless, WEIGHTROSE_ASSET, WEIGHTROSE_MOST_ASSETS);
	expect_added(&day, &purchase, 7);
	expect_not_added(&day, &purchase, WEIGHTROSE_BOOK_COUNTS, 0);
	expect_not_added(&day, &kindless, WEIGHTROSE_BOOK_COUNTS, 0);
	expect_record_refused(&day, none, WEIGHTROSE_MOVEMENT, 0);
	expect_not_removed(&day, WEIGHTROSE_MOST_ASSETS + 1, WEIGHTROSE_MOVEMENT, 0);
	expect_removed(&day, 1);
	expect_removed(&day, 450);
	expect_removed(&day, WEIGHTROSE_MOST_ASSETS - 2);
	expect_added(&day, &purchase, 7);
	end_day(day);
}

static void
published_into_too_little(void)
{
	struct block block = new_block(WEIGHTROSE_SCHEDULE_SIZE - 1);
	size_t i;

	memset(block.bytes, 0xa5, block.length);
	expect(weightrose_published(block.bytes, block.length) == 0, "121 bytes are too few");
	for (i = 0; i < block.length; i++)
		expect(block.bytes[i] == 0xa5, "a schedule was written in part");
	expect(weightrose_published(NULL, 0) == 0, "no bytes are too few");
	free(block.bytes);
}

/* Whether a schedule or a book of that version is refused for its version, as the library answers
 * to an empty ledger's. */
static int
refused_for_version(unsigned schedule_version, unsigned book_version)
{
	struct block schedule = new_schedule();
	struct block book = new_book(&empty_ledger);
	struct block room = new_block(WEIGHTROSE_MOST_REPORT_SIZE);
	enum weightrose_refusal refusal;

	put_u16(schedule.bytes + 4, (uint16_t)schedule_version);
	put_u16(book.bytes + 4, (uint16_t)book_version);
	refusal = weightrose_refusal_of(
		weightrose_report(schedule.bytes, schedule.length, book.bytes, book.length,
				  room.bytes, room.length));
	free(schedule.bytes);
	free(book.bytes);
	free(room.bytes);
	return refusal == WEIGHTROSE_SCHEDULE_VERSION || refusal == WEIGHTROSE_BOOK_VERSION;
}

/* What a host asks at its start: a library that is another one than its header's, or that does not
 * take the versions in the host's files, is told before any book is read. */
static void
start(void)
{
	unsigned version;

	expect(weightrose_belongs(), "header and library do not belong together");
	expect(weightrose_version_number() == WEIGHTROSE_VERSION_NUMBER, "another library");
	for (version = 0; version < 20; version++) {
		expect(weightrose_takes_schedule(version) == !refused_for_version(version, 1),
		       "a version of schedules is taken and told otherwise");
		expect(weightrose_takes_book(version) == !refused_for_version(1, version),
		       "a version of books is taken and told otherwise");
	}
	printf("library %s\n", WEIGHTROSE_VERSION);
}

int
main(void)
{
	start();
	t2();
	t4_and_t5();
	length_refusals();
	byte_refusals();
	amount_refusals();
	record_refusals();
	specialist_fund();
	desks();
	many_mitigants();
	bills_by_desk();
	bills_rounded();
	bills_in_other_buffers();
	rates();
	dealers();
	dealers_refused();
	dealers_in_other_buffers();
	near_tie();
	half_of_a_reinsurer();
	movements(1);
	movements(2);
	there_and_back(1);
	there_and_back(2);
	records_of_other_lengths();
	records_refused(1);
	records_refused(2);
	removals_refused();
	buffers_of_a_day();
	longer_report_of_less();
	standing_books_refused();
	largest_day(1);
	largest_day(2);
	published_into_too_little();
	printf("ledger: %d failures\n", failures);
	return failures ? EXIT_FAILURE : EXIT_SUCCESS;
}
