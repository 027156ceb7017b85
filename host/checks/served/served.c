/* Makes calls of woolyard.h's functions for another process, where the archive can't be linked into it.
 *
 * Standard input brings batches: the number of a batch's bytes, a word, and its calls one after the other.
 * Each call is answered where it lies, and the batch is written back. A word has eight bytes, the lowest
 * first. It needs no C header but the header's own two, as it is also compiled where no others are. */
#include "woolyard.h"

long read(int file, void *bytes, unsigned long length);
long write(int file, const void *bytes, unsigned long length);

/* The words of a call. What it lends follows, first numbers and then bytes, filled up to whole words. The
 * reply's number takes the place of the function's. */
enum { FUNCTION, FIRST, SECOND, THIRD, FOURTH, FIFTH, SIXTH, LENGTH, LENT_NUMBERS, LENT_BYTES, PLACES, LENT = PLACES + 5 };

enum {
    ABI, STATE, STATE_WITH_BOOK, SIDE, SIDE_WITH_BOOK, WALK, BAND, CLAIMS, HEAT, HEAT_TABLE, VISCOSITY, SHEET, SHEET_LINE,
    SHEET_NEXT, PARTS_TAKE, PARTS_END, REPORT, REPORT_TAKE, REPORT_END, WRITE_SHEET
};

#define WORDS 524288

static union {
    uint64_t words[WORDS];
    uint8_t bytes[8 * WORDS];
} batch;

static uint64_t heat(uint64_t kelvin_pattern, uint64_t *place)
{
    union {
        uint64_t pattern;
        double number;
    } kelvin = { kelvin_pattern }, answer = { *place };
    uint64_t number = woolyard_heat(kelvin.number, &answer.number);
    *place = answer.pattern;
    return number;
}

/* The numbers that are lent are lists with room for as many each, one behind the other. The arguments are their
 * lengths. */
static uint64_t claims(uint64_t *call)
{
    const uint64_t *lists = call + LENT;
    size_t room = call[LENT_NUMBERS] / 5;
    return woolyard_claims(lists, call[FIRST], lists + room, call[SECOND], lists + 2 * room, call[THIRD], lists + 3 * room,
                           call[FOURTH], lists + 4 * room, call[FIFTH], call + PLACES);
}

static uint64_t write_sheet(uint64_t *call, uint8_t *buffer)
{
    const uint64_t *lists = call + LENT;
    size_t room = call[LENT_NUMBERS] / 6;
    return woolyard_write_sheet(lists, call[FIRST], lists + room, call[SECOND], lists + 2 * room, call[THIRD],
                                lists + 3 * room, call[FOURTH], lists + 4 * room, call[FIFTH], lists + 5 * room,
                                call[SIXTH], buffer, call[LENGTH], call + PLACES);
}

/* Two lists are lent: what is kept between two parts, and the places of the answer. */
static uint64_t parts_take(uint64_t *call, const uint8_t *part)
{
    uint64_t *parts = call + LENT;
    uint64_t *answer = parts + call[LENT_NUMBERS] / 2;
    return woolyard_parts_take(parts, part, call[LENGTH], call + PLACES, answer);
}

/* A cursor, and what is lent of a report, has so many numbers ahead of it that are not the function's; a report's place is the
 * middle one. */
enum { AHEAD = 2, REPORT_PLACE = PLACES + 2 };

static uint64_t report(uint64_t *call, const uint8_t *sheet)
{
    return woolyard_report(sheet, call[LENGTH], call + LENT + AHEAD, call + REPORT_PLACE);
}

/* Two lists are lent: what is kept between two parts, and the report. */
static uint64_t report_end(uint64_t *call)
{
    uint64_t *reporting = call + LENT + AHEAD;
    return woolyard_report_end(reporting, reporting + call[LENT_NUMBERS] / 2, call + REPORT_PLACE);
}

/* How many words a call takes, with what it lends. */
static size_t words_of(const uint64_t *call)
{
    return LENT + call[LENT_NUMBERS] + (call[LENT_BYTES] + 7) / 8;
}

/* Makes the call that begins at this word. */
static uint64_t make(size_t word)
{
    uint64_t *call = batch.words + word;
    uint8_t *lent = batch.bytes + 8 * (word + LENT + call[LENT_NUMBERS]);
    switch (call[FUNCTION]) {
    case ABI:
        return woolyard_abi();
    case STATE:
        return woolyard_state(call[FIRST], call[SECOND], call[THIRD], call + PLACES);
    case STATE_WITH_BOOK:
        return woolyard_state_with_book(call[FIRST], call[SECOND], call[THIRD], call[FOURTH], lent, call[LENGTH],
                                        call + PLACES);
    case SIDE:
        return woolyard_side(call[FIRST], call[SECOND], call[THIRD], call[FOURTH], call + PLACES);
    case SIDE_WITH_BOOK:
        return woolyard_side_with_book(call[FIRST], call[SECOND], call[THIRD], call[FOURTH], call[FIFTH], lent,
                                       call[LENGTH], call + PLACES);
    case WALK:
        return woolyard_walk(call[FIRST], call[SECOND], call[THIRD], call[FOURTH], call + PLACES);
    case BAND:
        return woolyard_band(call[FIRST], call[SECOND], call[THIRD], call[FOURTH], call[FIFTH], call + PLACES);
    case CLAIMS:
        return claims(call);
    case HEAT:
        return heat(call[FIRST], call + PLACES);
    case HEAT_TABLE:
        return woolyard_heat_table(call[FIRST], call + PLACES);
    case VISCOSITY:
        return woolyard_viscosity(call[FIRST], call + PLACES);
    case SHEET:
        return woolyard_sheet(lent, call[LENGTH], call + PLACES);
    case SHEET_LINE:
        return woolyard_sheet_line(lent, call[LENGTH], call[FIRST], call + PLACES);
    case SHEET_NEXT:
        return woolyard_sheet_next(lent, call[LENGTH], call + LENT + AHEAD, call + PLACES);
    case PARTS_TAKE:
        return parts_take(call, lent);
    case PARTS_END:
        return woolyard_parts_end(call + LENT, call + PLACES);
    case REPORT:
        return report(call, lent);
    case REPORT_TAKE:
        return woolyard_report_take(call + LENT + AHEAD, lent, call[LENGTH]);
    case REPORT_END:
        return report_end(call);
    default:
        return write_sheet(call, lent);
    }
}

/* Whether so many bytes came before the end of the input. */
static int take(uint8_t *bytes, uint64_t length)
{
    while (length > 0) {
        long taken = read(0, bytes, length);
        if (taken <= 0)
            return 0;
        bytes += taken;
        length -= (uint64_t)taken;
    }
    return 1;
}

static int give(const uint8_t *bytes, uint64_t length)
{
    while (length > 0) {
        long given = write(1, bytes, length);
        if (given <= 0)
            return 0;
        bytes += given;
        length -= (uint64_t)given;
    }
    return 1;
}

int main(void)
{
    while (take(batch.bytes, 8)) {
        uint64_t length = batch.words[0];
        if (length > sizeof batch || !take(batch.bytes, length))
            return 1;
        for (size_t word = 0; 8 * word < length; word += words_of(batch.words + word))
            batch.words[word + FUNCTION] = make(word);
        if (!give(batch.bytes, length))
            return 1;
    }
    return 0;
}
