/* The header in use: a state, one side of it, the state with a book, another fluid, a walk, a band, claims, refusals, the heat capacity, the
 * heat table, the excess viscosity factor, a sheet and its lines, a faulty sheet, one that is too long, a sheet written from rows, with the
 * answers to it, sheets that arrive in parts, and reports on a sheet, whole and in parts. */
#include "woolyard.h"
#include <inttypes.h>
#include <stdio.h>
#include <string.h>

/* Of the answers of a part no more are printed. */
#define MOST_ANSWERS 3

/* What is wrong with a sheet that is refused. A later library may have more to say of one than this program knows. */
static void print_fault(uint64_t number, uint64_t place)
{
    if (number == WOOLYARD_SHEET_MALFORMED)
        printf("byte %" PRIu64 " begins the faulty line", place);
    else if (number == WOOLYARD_SHEET_TOO_LONG)
        printf("too long");
    else
        printf("reply %" PRIu64, number);
}

static void print_sheet(const char *text, size_t length)
{
    const uint8_t *sheet = (const uint8_t *)text;
    uint64_t reading[3], cursor[WOOLYARD_CURSOR] = { 0 }, state[3];
    uint64_t number = woolyard_sheet(sheet, length, reading);
    printf("sheet: ");
    if (number == WOOLYARD_ANSWERED)
        printf("%" PRIu64 " state lines", reading[0]);
    else
        print_fault(number, reading[1]);
    if (number == WOOLYARD_SHEET_MALFORMED)
        printf(" \"%.*s\"", (int)reading[2], text + reading[1]);
    printf("\n");
    while (woolyard_sheet_next(sheet, length, cursor, state) == WOOLYARD_ANSWERED)
        printf("  fluid %" PRIu64 ", %" PRIu64 " mK, %" PRIu64 " Pa\n", state[0], state[1], state[2]);
}

/* Rows of a spreadsheet, each a fluid, a temperature and a pressure, four at most: two lists for each fluid are made of them. */
static uint64_t write_rows(const uint64_t (*rows)[3], size_t count, uint8_t *buffer, size_t room, uint64_t *length)
{
    uint64_t millikelvin[3][4], pascals[3][4];
    size_t counts[3] = { 0 };
    for (; count > 0; count--, rows++) {
        uint64_t fluid = (*rows)[0];
        millikelvin[fluid][counts[fluid]] = (*rows)[1];
        pascals[fluid][counts[fluid]++] = (*rows)[2];
    }
    return woolyard_write_sheet(millikelvin[0], counts[0], pascals[0], counts[0], millikelvin[1], counts[1], pascals[1], counts[1],
                                millikelvin[2], counts[2], pascals[2], counts[2], buffer, room, length);
}

/* As the program `sheet` prints it. */
static void print_answer(uint64_t number, const uint64_t *figures)
{
    if (number != WOOLYARD_ANSWERED) {
        printf("  NO %" PRIu64 "\n", number);
        return;
    }
    int split = figures[WOOLYARD_KIND] == WOOLYARD_KIND_SPLIT;
    printf("  %s %" PRIu64 " %" PRIu64, split ? "SPLIT" : "ONE", figures[WOOLYARD_GAS_ROOT], figures[WOOLYARD_GAS_DENSITY]);
    if (split)
        printf(" %" PRIu64 " %" PRIu64, figures[WOOLYARD_DENSE_ROOT], figures[WOOLYARD_DENSE_DENSITY]);
    printf("\n");
}

static void print_answers(const uint8_t *sheet, size_t length)
{
    uint64_t cursor[WOOLYARD_CURSOR] = { 0 }, state[3], figures[5];
    while (woolyard_sheet_next(sheet, length, cursor, state) == WOOLYARD_ANSWERED) {
        uint64_t number = woolyard_state(state[0], state[1], state[2], figures);
        print_answer(number, figures);
    }
}

/* The first answers, each as its line ends; and behind each part the fault, or what is said of the sheet if it is over there. */
static void print_parts(const char *const *list, size_t count)
{
    uint64_t parts[WOOLYARD_PARTS] = { 0 }, number, taken, answer[9], reading[2];
    printf("sheet in parts\n");
    for (; count > 0; count--, list++) {
        const uint8_t *part = (const uint8_t *)*list;
        size_t length = strlen(*list), answers = 0;
        printf("part of %zu bytes\n", length);
        while ((number = woolyard_parts_take(parts, part, length, &taken, answer)) == WOOLYARD_ANSWERED) {
            if (answers++ < MOST_ANSWERS)
                print_answer(answer[WOOLYARD_LINE_NUMBER], answer + WOOLYARD_LINE_FIGURES);
            part += taken;
            length -= taken;
        }
        if (answers > MOST_ANSWERS)
            printf("  and %zu more answers\n", answers - MOST_ANSWERS);
        printf("  %s: ", number == WOOLYARD_PART_USED_UP ? "if it is over" : "refused");
        number = woolyard_parts_end(parts, reading);
        if (number == WOOLYARD_ANSWERED)
            printf("%" PRIu64 " state lines", reading[0]);
        else
            print_fault(number, reading[1]);
        printf("\n");
    }
}

/* For each fluid how many states were ONE, SPLIT or refused by each number, and what the gas densities come to; or the fault. */
static void print_report(const char *of, uint64_t number, const uint64_t *report, uint64_t place)
{
    static const char *const kinds[] = { "ONE", "SPLIT", "NO 21", "NO 22", "NO 31", "NO 32" };
    printf("%s: ", of);
    if (number != WOOLYARD_ANSWERED) {
        print_fault(number, place);
        printf("\n");
        return;
    }
    printf("reply 0\n");
    for (int fluid = 0; fluid < 3; fluid++, report += 11) {
        printf("  fluid %d:", fluid);
        for (int kind = 0; kind < 6; kind++)
            printf(" %" PRIu64 " %s,", report[kind], kinds[kind]);
        if (report[0] == 0 && report[1] == 0)
            printf(" no densities\n");
        else
            printf(" densities %" PRIu64 " g/m3 in all, from %" PRIu64 " in line %" PRIu64 " to %" PRIu64 " in line %" PRIu64 "\n", report[6],
                   report[7], report[8], report[9], report[10]);
    }
}

static void print_whole_report(const char *sheet)
{
    uint64_t report[WOOLYARD_REPORT], place;
    uint64_t number = woolyard_report((const uint8_t *)sheet, strlen(sheet), report, &place);
    print_report("report on a sheet", number, report, place);
}

/* In parts of this size, the last of which may be shorter: behind each the fault, or what is said of the sheet if it is over there. */
static void print_report_in_parts(const char *sheet, size_t size)
{
    uint64_t reporting[WOOLYARD_REPORTING] = { 0 }, report[WOOLYARD_REPORT], place;
    printf("report on a sheet in parts\n");
    for (size_t rest = strlen(sheet), length; rest > 0; rest -= length, sheet += length) {
        length = rest < size ? rest : size;
        printf("part of %zu bytes\n", length);
        uint64_t taken = woolyard_report_take(reporting, (const uint8_t *)sheet, length);
        uint64_t number = woolyard_report_end(reporting, report, &place);
        print_report(taken == WOOLYARD_PART_USED_UP ? "  if it is over" : "  refused", number, report, place);
    }
}

/* A sheet of one byte too many: full sections of the widest lines, cut off. It ends with a zero byte more, as text does. */
static void write_too_long(char sheet[WOOLYARD_SHEET_MOST_BYTES + 2])
{
    static const char count[] = "1000\n", line[] = "9999999999 9999999999\n";
    size_t count_length = strlen(count), line_length = strlen(line);
    size_t section_length = count_length + WOOLYARD_SECTION_MOST_STATES * line_length;
    for (size_t i = 0; i <= WOOLYARD_SHEET_MOST_BYTES; i++) {
        size_t place = i % section_length;
        sheet[i] = place < count_length ? count[place] : line[(place - count_length) % line_length];
    }
    sheet[WOOLYARD_SHEET_MOST_BYTES + 1] = 0;
}

int main(void)
{
    uint64_t abi = woolyard_abi();
    if (abi != WOOLYARD_ABI) {
        fprintf(stderr, "libwoolyard.a is of ABI %" PRIu64 " and woolyard.h of %d: take both of one landing\n", abi, WOOLYARD_ABI);
        return 1;
    }

    uint64_t figures[5];
    uint64_t number = woolyard_state(WOOLYARD_OXYGEN, 120000, 500000, figures);
    printf("oxygen at 120000 mK and 500000 Pa: reply %" PRIu64 ", %s\n", number,
           figures[WOOLYARD_KIND] == WOOLYARD_KIND_SPLIT ? "SPLIT" : "ONE");
    printf("  gas root %" PRIu64 ", %" PRIu64 " g/m3\n", figures[WOOLYARD_GAS_ROOT], figures[WOOLYARD_GAS_DENSITY]);
    printf("  dense root %" PRIu64 ", %" PRIu64 " g/m3\n", figures[WOOLYARD_DENSE_ROOT], figures[WOOLYARD_DENSE_DENSITY]);

    uint64_t side_figures[2];
    number = woolyard_side(WOOLYARD_OXYGEN, 120000, 500000, WOOLYARD_DENSE, side_figures);
    printf("its dense side alone: reply %" PRIu64 ", root %" PRIu64 ", %" PRIu64 " g/m3\n", number, side_figures[WOOLYARD_ROOT],
           side_figures[WOOLYARD_DENSITY]);
    number = woolyard_side(WOOLYARD_OXYGEN, 120000, 500000, 2, side_figures);
    printf("its side 2: reply %" PRIu64 "\n", number);

    uint8_t book[WOOLYARD_BOOK_BYTES] = { 0 };
    number = woolyard_state_with_book(WOOLYARD_OXYGEN, 120000, 500000, 5, book, WOOLYARD_BOOK_BYTES, figures);
    const uint8_t *slot = book + 3 * 5;
    printf("with a book: reply %" PRIu64 ", and slot 5 holds %d\n", number, slot[0] + 256 * slot[1] + 65536 * slot[2]);

    number = woolyard_side(WOOLYARD_NITROGEN, 300000, 1000000, WOOLYARD_GAS, side_figures);
    printf("nitrogen at 300000 mK and 1000000 Pa: reply %" PRIu64 ", root %" PRIu64 ", %" PRIu64 " g/m3\n", number,
           side_figures[WOOLYARD_ROOT], side_figures[WOOLYARD_DENSITY]);

    uint64_t walked[2];
    number = woolyard_walk(WOOLYARD_OXYGEN, 120000, 500000, WOOLYARD_WALK_ENOUGH, walked);
    printf("oxygen at 120000 mK and 500000 Pa, walked: reply %" PRIu64 ", gas root %" PRIu64 " after %" PRIu64 " values\n", number,
           walked[WOOLYARD_WALK_ROOT], walked[WOOLYARD_WALK_VALUES]);
    number = woolyard_walk(WOOLYARD_OXYGEN, 120000, 500000, 8410, walked);
    printf("with a limit of 8410: reply %" PRIu64 "\n", number);

    uint64_t roots[2];
    number = woolyard_band(WOOLYARD_OXYGEN, 120000, 500000, 950, 1050, roots);
    printf("with 0.950 to 1.050 of its attraction: reply %" PRIu64 ", gas roots %" PRIu64 " to %" PRIu64 "\n", number,
           roots[WOOLYARD_BAND_LOWER], roots[WOOLYARD_BAND_UPPER]);
    number = woolyard_band(WOOLYARD_OXYGEN, 120000, 500000, 1050, 950, roots);
    printf("with 1.050 to 0.950 of it: reply %" PRIu64 "\n", number);

    static const uint64_t fluids[] = { WOOLYARD_OXYGEN, WOOLYARD_OXYGEN }, millikelvin[] = { 120000, 120000 },
                          pascals[] = { 500000, 500000 }, sides[] = { WOOLYARD_GAS, WOOLYARD_DENSE };
    static const uint64_t right[] = { 92696, 1699 }, wrong[] = { 92696, 92696 };
    uint64_t claim;
    number = woolyard_claims(fluids, 2, millikelvin, 2, pascals, 2, sides, 2, right, 2, &claim);
    printf("its roots claimed, 92696 for gas and 1699 for dense: reply %" PRIu64 "\n", number);
    number = woolyard_claims(fluids, 2, millikelvin, 2, pascals, 2, sides, 2, wrong, 2, &claim);
    printf("with 92696 claimed for both: reply %" PRIu64 ", claim %" PRIu64 "\n", number, claim);

    number = woolyard_state(WOOLYARD_OXYGEN, 55999, 500000, figures);
    printf("oxygen at 55999 mK: reply %" PRIu64 "\n", number);

    double heat = 0;
    if (woolyard_heat(300, &heat) == WOOLYARD_ANSWERED)
        printf("hydrogen at 300 K: %.6f kJ/(kg K)\n", heat);
    uint64_t whole_heat;
    if (woolyard_heat_table(300000, &whole_heat) == WOOLYARD_ANSWERED)
        printf("hydrogen at 300000 mK, from the table: %" PRIu64 " J/(kg K)\n", whole_heat);
    if (woolyard_heat_table(41500, &whole_heat) == WOOLYARD_ANSWERED)
        printf("hydrogen at 41500 mK, between two entries: %" PRIu64 " J/(kg K)\n", whole_heat);

    uint64_t factor;
    if (woolyard_viscosity(1500, &factor) == WOOLYARD_ANSWERED)
        printf("at 1.500 of the critical density: excess viscosity factor %" PRIu64 " millionths\n", factor);
    number = woolyard_viscosity(99, &factor);
    printf("at 0.099 of it: reply %" PRIu64 "\n", number);

    static const char good[] = "1\n300000 1000000\n2\n120000 500000\n55999 500000\n1\n90000 300000\n";
    static const char faulty[] = "0\n1\n120000\n0\n";
    print_sheet(good, sizeof good - 1);
    print_sheet(faulty, sizeof faulty - 1);
    static char too_long[WOOLYARD_SHEET_MOST_BYTES + 2];
    write_too_long(too_long);
    print_sheet(too_long, strlen(too_long));

    static const uint64_t rows[4][3] = { { WOOLYARD_OXYGEN, 300000, 1000000 },
                                         { WOOLYARD_PARAHYDROGEN, 300000, 1000000 },
                                         { WOOLYARD_OXYGEN, 120000, 500000 },
                                         { WOOLYARD_OXYGEN, 55999, 500000 } };
    static uint8_t buffer[WOOLYARD_SHEET_MOST_BYTES];
    uint64_t length, refused_length;
    number = write_rows(rows, 4, buffer, sizeof buffer, &length);
    printf("sheet written from four rows: reply %" PRIu64 ", %" PRIu64 " bytes\n", number, length);
    print_answers(buffer, length);
    number = write_rows(rows, 4, buffer, length - 1, &refused_length);
    printf("with room for one byte less: reply %" PRIu64 "\n", number);

    static const char *const cut[] = { "1\n300000 1000000\n2\n1200", "00 500000\n55999 500000\n0\n" };
    static const char *const faulty_cut[] = { "0\n1\n120000 ", " 500000\n", "0\n" };
    print_parts(cut, 2);
    static const char *const too_long_uncut[] = { too_long };
    print_parts(faulty_cut, 3);
    print_parts(too_long_uncut, 1);

    static const char reported[] = "1\n300000 1000000\n3\n300000 1000000\n120000 500000\n55999 500000\n1\n90000 9999\n";
    print_whole_report(reported);
    print_report_in_parts(reported, 40);
    print_whole_report(faulty);
    print_report_in_parts(faulty, 8);
    print_whole_report(too_long);
    print_report_in_parts(too_long, 40000);

    if (fflush(stdout) != 0 || ferror(stdout)) {
        fprintf(stderr, "the output can't be written\n");
        return 1;
    }
    return 0;
}
