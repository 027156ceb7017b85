/* Woolyard: compressibility roots and densities of parahydrogen, oxygen and nitrogen, hydrogen's ideal heat capacity, the excess
 * viscosity factor of dense gas, and state sheets.
 *
 * Every function answers every input with a number: 0 for an answer, another for a refusal, named below. The caller checks nothing first.
 * Each is proved to answer what docs/RULES.md defines, and to write nothing but what is said here.
 *
 * What a pointer must be, and nothing else is asked: it points to as many elements as its array or its length says, and what is written
 * through one pointer lies apart from what the others point to. With length 0 it may be any pointer but a null one.
 * No function keeps a pointer, allocates, or has state of its own, so calls on different memory may run at the same time.
 *
 * What a call costs is said with it, behind "Costs": what the work grows with, and the magnitude of the time on a usual processor, which is no
 * promise; docs/BENCHMARK.md has figures of one machine. What is refused at once, as by 1, 21 or 7, takes some 10 ns.
 *
 * Link libwoolyard.a (x86-64 Linux), which `rt lib` writes in crates/woolyard/out. Of the C library it needs memcpy, and nothing else. */
#ifndef WOOLYARD_H
#define WOOLYARD_H

#include <stddef.h>
#include <stdint.h>

#ifdef __cplusplus
extern "C" {
#endif

/* What C sees of the archive, as a number: it goes up by one with each landing that changes a number, a type, a function or what one
 * means here (CHANGELOG.md tells what). A caller that was compiled with this header asks the archive that it is linked with:
 * woolyard_abi() == WOOLYARD_ABI. */
#define WOOLYARD_ABI 1

/* The numbers of the replies. */
#define WOOLYARD_ANSWERED 0
#define WOOLYARD_NO_SUCH_FLUID 1          /* fluid is above 2 */
#define WOOLYARD_NO_SUCH_SLOT 4           /* book not of 192 bytes, or slot above 63 */
#define WOOLYARD_HEAT_OUT_OF_RANGE 5      /* heat-capacity temperature not a number in 14 to 1000 K */
#define WOOLYARD_SHEET_MALFORMED 6        /* sheet badly formed */
#define WOOLYARD_SHEET_TOO_LONG 7         /* sheet longer than 65,536 bytes */
#define WOOLYARD_LENGTHS_DIFFER 8         /* lists of claims of unequal lengths */
#define WOOLYARD_LISTS_UNFIT 8            /* a list above 1000 numbers for a sheet, or a fluid's two lists of unequal lengths */
#define WOOLYARD_TOO_MANY_DIGITS 9        /* a number above ten digits for a sheet */
#define WOOLYARD_NO_ROOM 10               /* the sheet to be written is longer than the buffer or than 65,536 bytes */
#define WOOLYARD_WALK_CUT_SHORT 11        /* the limit of values is below what the walk needs */
#define WOOLYARD_NO_SUCH_SIDE 12          /* side is neither 0 nor 1 */
#define WOOLYARD_SCALING_OUT_OF_RANGE 13  /* a scaling below 500 or above 1500 thousandths, or the lower one not first */
#define WOOLYARD_ROOT_DIFFERS 14          /* the root that is claimed is not the side's */
#define WOOLYARD_DENSITY_OUT_OF_RANGE 15  /* reduced density below 100 or above 3000 thousandths */
#define WOOLYARD_NO_SUCH_LINE 16          /* no state line of the number asked for */
#define WOOLYARD_NO_MORE_LINES 16         /* no state line is left, and the sheet is good */
#define WOOLYARD_PART_USED_UP 16          /* no state line ended in what was left of the part */
#define WOOLYARD_TEMPERATURE_TOO_LOW 21   /* below 14,000 mK for parahydrogen, 56,000 mK for oxygen, 64,000 mK for nitrogen */
#define WOOLYARD_TEMPERATURE_TOO_HIGH 22  /* above 1,000,000 mK for every fluid */
#define WOOLYARD_PRESSURE_TOO_LOW 31      /* below 10,000 Pa for every fluid */
#define WOOLYARD_PRESSURE_TOO_HIGH 32     /* above 50,000,000 Pa for every fluid */

/* The fluids. */
#define WOOLYARD_PARAHYDROGEN 0
#define WOOLYARD_OXYGEN 1
#define WOOLYARD_NITROGEN 2

/* The sides of a state. */
#define WOOLYARD_GAS 0
#define WOOLYARD_DENSE 1

/* The kinds of an answered state. A refused state has none. */
#define WOOLYARD_KIND_NONE 0
#define WOOLYARD_KIND_ONE 1    /* the gas root and the dense root are equal */
#define WOOLYARD_KIND_SPLIT 2  /* they differ */

/* Where the figures of a state lie. */
#define WOOLYARD_KIND 0
#define WOOLYARD_GAS_ROOT 1       /* the largest crossing of the cubic, in hundred-thousandths */
#define WOOLYARD_DENSE_ROOT 2     /* the smallest */
#define WOOLYARD_GAS_DENSITY 3    /* of each root, in grams per cubic metre, rounded down */
#define WOOLYARD_DENSE_DENSITY 4

/* Where the figures of one side lie. */
#define WOOLYARD_ROOT 0     /* the gas root or the dense root */
#define WOOLYARD_DENSITY 1  /* of that root */

/* Where the figures of a walk lie. */
#define WOOLYARD_WALK_ROOT 0    /* the gas root */
#define WOOLYARD_WALK_VALUES 1  /* how many values of the cubic were worked out */

/* A limit with which no walk is cut short. */
#define WOOLYARD_WALK_ENOUGH 100001

/* Where the roots of a band lie. */
#define WOOLYARD_BAND_LOWER 0  /* the gas root at the lower scaling, which is the larger root */
#define WOOLYARD_BAND_UPPER 1  /* the gas root at the upper scaling */

/* The scalings of a band, in thousandths: the ends of their range, and the one that changes nothing. */
#define WOOLYARD_SCALING_LEAST 500
#define WOOLYARD_SCALING_MOST 1500
#define WOOLYARD_SCALING_NONE 1000

/* Where the figures of a state line that has ended lie. Behind the reply's number come its five figures, as those of a state do. */
#define WOOLYARD_LINE_FLUID 0
#define WOOLYARD_LINE_MILLIKELVIN 1
#define WOOLYARD_LINE_PASCALS 2
#define WOOLYARD_LINE_NUMBER 3   /* of the reply to the state, as woolyard_state answers it */
#define WOOLYARD_LINE_FIGURES 4  /* the first of the five */

/* How many bytes a book has, how many a sheet may have, how many states one of its sections, how many numbers a cursor over a sheet has, how many
 * are kept of a sheet between two of its parts, how many a report has, eleven for each fluid, and how many are kept of a sheet in parts with
 * its report so far. */
#define WOOLYARD_BOOK_BYTES 192
#define WOOLYARD_SHEET_MOST_BYTES 65536
#define WOOLYARD_SECTION_MOST_STATES 1000
#define WOOLYARD_CURSOR 3
#define WOOLYARD_PARTS 8
#define WOOLYARD_REPORT 33
#define WOOLYARD_REPORTING 44

/* The archive's own WOOLYARD_ABI. Costs what an empty function does. */
uint64_t woolyard_abi(void);

/* The reply to a state: its five figures, which are zeros where it is refused.
 * Answers 0, 1, 21, 22, 31 or 32; the first refusal in this order that applies is given.
 * Costs some 50 to 200 ns, whatever the state. */
uint64_t woolyard_state(uint64_t fluid, uint64_t millikelvin, uint64_t pascals, uint64_t figures[5]);

/* The same with a book of starting points, 192 bytes, holding anything at all. Slot k, from 0 to 63, has bytes 3 k to 3 k + 2, the lowest
 * first: it holds book[3 * k] + 256 * book[3 * k + 1] + 65536 * book[3 * k + 2]. An answered call writes the gas root into the three bytes of
 * its slot and touches no other byte; a refused call writes nothing to the book. What the book holds changes how long an answer takes, never
 * what it is. Answers 0, 1, 21, 22, 31, 32 or 4; the first refusal in this order that applies is given.
 * Costs somewhat less than woolyard_state where the slot holds the state's own gas root, and about as much where it holds anything else. */
uint64_t woolyard_state_with_book(uint64_t fluid, uint64_t millikelvin, uint64_t pascals, uint64_t slot, uint8_t *book, size_t book_length,
                                  uint64_t figures[5]);

/* The reply to a state for the one side that is named: that side's root and density, which are zeros where it is refused. For a state of
 * kind ONE both sides give the same figures. The side may be any number.
 * Answers 0, 1, 21, 22, 31, 32 or 12; the first refusal in this order that applies is given.
 * Costs no more than woolyard_state, since it leaves out a density where there are two. */
uint64_t woolyard_side(uint64_t fluid, uint64_t millikelvin, uint64_t pascals, uint64_t side, uint64_t figures[2]);

/* The same with a book, which is used as woolyard_state_with_book uses it: an answered call writes the gas root into its slot, whichever side
 * is named, and touches no other byte; a refused call writes nothing to the book.
 * Answers 0, 1, 21, 22, 31, 32, 12 or 4; the first refusal in this order that applies is given.
 * Costs what woolyard_state_with_book does, or less. */
uint64_t woolyard_side_with_book(uint64_t fluid, uint64_t millikelvin, uint64_t pascals, uint64_t side, uint64_t slot, uint8_t *book,
                                 size_t book_length, uint64_t figures[2]);

/* The gas root of a state found the slow way: the cubic is worked out at N + b and then at one place below after another, until its value is not
 * positive; N is the grid, 100,000, and b the state's own B* on it, as docs/RULES.md has them. That place is the gas root of woolyard_state. The
 * limit may be any number, and no more values than it says are worked out. Answers 0, 1, 21, 22, 31, 32 or 11; the first refusal in this order
 * that applies is given.
 * Costs some 1 ns for each value: as many as the limit at most, and never more than 100,001, which is 0.1 ms.
 *   walked[0]  the gas root z; 0 where refused
 *   walked[1]  how many values were worked out: N + b - z + 1 where answered; for 11 the limit, which is below that; for any other refusal 0 */
uint64_t woolyard_walk(uint64_t fluid, uint64_t millikelvin, uint64_t pascals, uint64_t limit, uint64_t walked[2]);

/* What if the attraction is a little off: the gas root of a state at two scalings of its a, which is A* on the grid, as docs/RULES.md has it. The
 * scalings are whole numbers of thousandths, from 500 to 1500, the lower first; they may be equal, and 1000 is a itself. The scaled a is rounded
 * down, and b is left as it is. More attraction never makes the gas root larger: at every scaling from lower to upper it lies from roots[1] to
 * roots[0]. The scalings may be any numbers. Answers 0, 1, 21, 22, 31, 32 or 13; the first refusal in this order that applies is given.
 * Costs little more than woolyard_state.
 *   roots[0]  the gas root at the lower scaling; 0 where refused
 *   roots[1]  the gas root at the upper scaling, which is not the larger one; 0 where refused */
uint64_t woolyard_band(uint64_t fluid, uint64_t millikelvin, uint64_t pascals, uint64_t lower, uint64_t upper, uint64_t roots[2]);

/* Checks roots that other programs gave: a list of claims, each a fluid, a temperature in millikelvin, a pressure in pascals, a side and a
 * root, as five lists. Claim k, counted from 0, has number k of each list. A claim stands exactly if its state is accepted and the root is that
 * side's own, which is the root that woolyard_side answers. The lists may hold any numbers, and are only read.
 * Answers 0 where every claim stands, as all claims of empty lists do; 8 where the lengths of the lists are not all equal, and then no claim is
 * looked at; and otherwise the refusal of the first claim that does not stand, which is 1, 21, 22, 31, 32, 12 or 14, the first in this order
 * that applies. No claim behind that one is looked at.
 * Costs for each claim that is looked at about what woolyard_side does for its state, or less, since no density is worked out.
 *   *claim  the number of the claim that is refused; 0 where all stand or the lengths differ */
uint64_t woolyard_claims(const uint64_t *fluids, size_t fluids_length, const uint64_t *millikelvin, size_t millikelvin_length,
                         const uint64_t *pascals, size_t pascals_length, const uint64_t *sides, size_t sides_length, const uint64_t *roots,
                         size_t roots_length, uint64_t *claim);

/* Hydrogen's ideal heat capacity at a temperature in kelvin, any double at all: kJ/(kg K), equal bit for bit to Table 4 evaluated from A5
 * down, each operation rounded once. Answers 0, or 5 and leaves *heat alone: below 14, above 1000, an infinity or a NaN.
 * Costs a few multiplications, some 10 ns. */
uint64_t woolyard_heat(double kelvin, double *heat);

/* The same in whole numbers, for a machine that has no doubles: J/(kg K), at a temperature in millikelvin, any number at all. At a whole
 * kelvin it is the polynomial of Table 4 with its decimals as they are printed, worked out exactly, times 1000 and rounded down; between two
 * of them it is the straight line from the one whole number to the other, rounded down, and so it never leaves what lies between these.
 * Answers 0, or 21 or 22 with *heat 0: below 14,000 or above 1,000,000 mK, as for parahydrogen.
 * Costs a look at two entries of a table and a division or two, some 10 ns. */
uint64_t woolyard_heat_table(uint64_t millikelvin, uint64_t *heat);

/* The excess viscosity factor of TM-564's equation (2.12-2), in millionths, at a reduced density in thousandths, any number at all: what
 * that equation has in braces, (0.093324 x^4 - 0.40758 x^3 + 0.58533 x^2 + 0.23364 x + 1.0230)^4 - 1. The quartic is worked out exactly and
 * rounded down to millionths; so is each of the two squares that make its fourth power. The equation's 1e-7 and its xi stay with the caller:
 * *factor / 1e6 x 1e-7 / xi is by how many Pa s the viscosity is above that at low pressure. (For xi, 1 atm is 101325 Pa; the memorandum
 * prints 1.013 x 10^6.) Answers 0, or 15 with *factor 0: below 100 or above 3000. Below 100 the formula can't be used, since at 0, where the
 * excess should be none, it gives 95222 millionths.
 * Costs a few multiplications, some 10 ns. */
uint64_t woolyard_viscosity(uint64_t thousandths, uint64_t *factor);

/* Reads a whole sheet. Answers 0, 6 or 7; 7 comes before 6.
 * Costs one reading of the bytes, up to the end of the faulty line if there is one, some 1 ns a byte: 0.1 ms for the longest sheet.
 *   reading[0]  the number of state lines, the sum of the three counts; 0 for a refused sheet
 *   reading[1]  6: the place, which is the first byte of the first line that can't stand there; otherwise 0
 *   reading[2]  6: the length of the faulty line, which is sheet[place] and on, without byte 10; 0 if the line is missing; otherwise 0 */
uint64_t woolyard_sheet(const uint8_t *sheet, size_t length, uint64_t reading[3]);

/* State line k of a sheet, counted from 0 through all sections: its fluid, temperature in millikelvin and pressure in pascals as written,
 * in range or not; zeros where refused. Answers 0, 6, 7 or 16: 7 comes before 6, and 6 before 16, which is given exactly when the sheet is
 * good and k is not below the number of state lines.
 * Costs what woolyard_sheet does, for each k again: all lines of a sheet cost as many readings of it as there are lines, some 0.3 s for the
 * longest. For more than a few lines take woolyard_sheet_next. */
uint64_t woolyard_sheet_line(const uint8_t *sheet, size_t length, uint64_t k, uint64_t state[3]);

/* The next state line of a sheet, from where a cursor stands: a walk over all state lines reads the sheet once. The cursor is three numbers:
 * zeros stand at the start, and what an answered call leaves stands behind the line that it told. It may hold any numbers at all; the library
 * never relies on it. Answers 0 with the line's fluid, temperature in millikelvin and pressure in pascals as written, in range or not, and
 * moves the cursor behind the line; 16 where no state line is left, which from zeros on says that the sheet is good; 6 where the line
 * that begins next can't stand there; 7 for a sheet longer than 65,536 bytes, whatever the cursor. Where it does not answer 0, the state is
 * zeros and the cursor is left as it was. Lines before a fault are told, and the fault when it is reached: woolyard_sheet tells it first, with
 * its place.
 * Costs a reading of the bytes from the cursor to the end of the line that is told, wherever in the sheet that is: some 1 ns a byte, and so a
 * walk over all lines about what woolyard_sheet does.
 *   cursor[0]  how many sections were begun
 *   cursor[1]  how many state lines the last of them still lacks
 *   cursor[2]  the place of the line's first byte */
uint64_t woolyard_sheet_next(const uint8_t *sheet, size_t length, uint64_t cursor[WOOLYARD_CURSOR], uint64_t state[3]);

/* Reads a sheet that arrives in parts, any bytes in any pieces, some perhaps empty, and answers each state as its line ends. All that is kept
 * between two calls are the numbers of `parts`: zeros before the first byte, and then what the last call left. They may be copied, kept as long
 * as one likes and gone on from, also from a copy; and they may hold any numbers at all, the library never relies on them. Of the part no byte is
 * kept or written. However a sheet is cut, the answers are the same, and so is what woolyard_parts_end says behind its last byte, which for at
 * most 65,536 bytes is what woolyard_sheet says of the whole.
 * Answers 0 where a state line ended: the caller goes on with the rest of the part, from part[*taken] on. Otherwise the part is used up, and
 * *taken is its length: 16 where no fault was met so far, 6 or 7 where one was, in this part or before. A line is held until it ends, and a bad one
 * is met there; but one of more than 21 bytes at its 22nd, and a byte behind the last line that is wanted at once. 7 is met at byte 65,537,
 * unless 6 was met before it. Behind a fault no byte changes anything, and what was answered before it stands.
 * Costs a reading of the bytes that are taken, some 2 ns a byte, and for a line that ended what woolyard_state does; the call itself some 50 ns,
 * which single bytes feel. What came before costs nothing again.
 *   *taken  how many bytes of the part were taken: for 0 up to the end of the state line, with its byte 10
 *   answer  0: the line's fluid, temperature and pressure as written, then the number and the five figures that woolyard_state answers
 *           for them; otherwise zeros */
uint64_t woolyard_parts_take(uint64_t parts[WOOLYARD_PARTS], const uint8_t *part, size_t length, uint64_t *taken, uint64_t answer[9]);

/* What would be said of the sheet if it were over here: 0, 6 or 7. A line that is missing or lacks its end is 6 here, and no fault before.
 * Nothing is changed: the caller may go on. Costs some 10 ns, whatever was taken.
 *   reading[0]  the number of state lines; 0 where refused
 *   reading[1]  6: the place, as woolyard_sheet has it; otherwise 0 */
uint64_t woolyard_parts_end(const uint64_t parts[WOOLYARD_PARTS], uint64_t reading[2]);

/* One page about a whole sheet: for each fluid what its states come to, eleven numbers a fluid, hydrogen first, then oxygen, then nitrogen.
 * Lines are counted from 1 through the whole sheet, count lines included. Answers 0, or 6 or 7 as woolyard_sheet does, and then zeros.
 * Costs one reading, as woolyard_sheet does, and for each state line what woolyard_state does: some 0.3 ms for the longest sheet.
 *   report[11 * fluid + 0]   how many states were ONE, kind 1
 *   report[11 * fluid + 1]   how many were SPLIT, kind 2
 *   report[11 * fluid + 2]   how many were refused by 21
 *   report[11 * fluid + 3]   how many by 22
 *   report[11 * fluid + 4]   how many by 31
 *   report[11 * fluid + 5]   how many by 32; these six together are the section's count
 *   report[11 * fluid + 6]   the exact sum of the gas densities of the answered states, ONE and SPLIT
 *   report[11 * fluid + 7]   the smallest of these gas densities
 *   report[11 * fluid + 8]   the line of the first state that reaches it
 *   report[11 * fluid + 9]   the largest
 *   report[11 * fluid + 10]  the line of the first state that reaches it; the last five are 0 where no state was answered
 *   *place                   6: the place of the fault, as woolyard_sheet has it; otherwise 0 */
uint64_t woolyard_report(const uint8_t *sheet, size_t length, uint64_t report[WOOLYARD_REPORT], uint64_t *place);

/* The same for a sheet that arrives in parts, any bytes in any pieces. All that is kept between two calls are the numbers of `reporting`: zeros
 * before the first byte, and then what the last call left. They may be copied and gone on from, also from a copy; and they may hold any numbers at
 * all: a sum that would then pass 64 bits adds nothing. Every part is used up.
 * Answers 16 while no fault was met, and 6 or 7 from a fault on, in this part or before, as woolyard_parts_take does.
 * Costs about what woolyard_parts_take does for the same bytes and lines. */
uint64_t woolyard_report_take(uint64_t reporting[WOOLYARD_REPORTING], const uint8_t *part, size_t length);

/* What would be said of the sheet if it were over here: 0, 6 or 7, as woolyard_parts_end. However a sheet of at most 65,536 bytes was cut, from
 * zeros on this is what woolyard_report says of the whole. Nothing is changed: the caller may go on. Costs some 10 ns, whatever was taken.
 *   report  as woolyard_report has it; zeros where refused
 *   *place  6: the place; otherwise 0 */
uint64_t woolyard_report_end(const uint64_t reporting[WOOLYARD_REPORTING], uint64_t report[WOOLYARD_REPORT], uint64_t *place);

/* Writes a sheet: for each fluid a list of temperatures in millikelvin and a list of pressures in pascals, of which state k, counted from 0,
 * has number k of both. The sheet is written to the first bytes of the buffer, section by section with its count, and the bytes behind it stay
 * as they were. woolyard_sheet_line reads the same numbers back; and what it reads of a good sheet is written as the very bytes of that one.
 * States out of range are written too. The lists may hold any numbers, and are only read.
 * Answers 0, or one of these refusals, the first in this order that applies, and then no byte of the buffer is written: 8 where a list is above
 * 1000 numbers, or the two lists of a fluid are of unequal lengths; 9 where a number is above ten digits, which is above 9,999,999,999; 10 where
 * the whole sheet is longer than the buffer or than 65,536 bytes. It is the sheet's own length that counts, so a buffer of just that length is
 * enough; and one of WOOLYARD_SHEET_MOST_BYTES has room for every sheet that can be written.
 * Costs one pass over the lists to measure the sheet and one to write it, some 2 ns a byte of the sheet.
 *   *length  how many bytes the sheet has; 0 where refused */
uint64_t woolyard_write_sheet(const uint64_t *hydrogen_millikelvin, size_t hydrogen_millikelvin_length, const uint64_t *hydrogen_pascals,
                              size_t hydrogen_pascals_length, const uint64_t *oxygen_millikelvin, size_t oxygen_millikelvin_length,
                              const uint64_t *oxygen_pascals, size_t oxygen_pascals_length, const uint64_t *nitrogen_millikelvin,
                              size_t nitrogen_millikelvin_length, const uint64_t *nitrogen_pascals, size_t nitrogen_pascals_length,
                              uint8_t *buffer, size_t buffer_length, uint64_t *length);

#ifdef __cplusplus
}
#endif

#endif
