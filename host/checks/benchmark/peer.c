/* The same job as it is usually done: in doubles, with the cubic solver of the GNU Scientific Library (GSL). It answers the questions of
 * woolyard_state with the formulas of document 01, without the roundings to whole numbers.
 *
 * It is in C, and build.rs has gcc compile it, because LLVM's code for these lines (from Rust as from C) is a fifth slower or more: its
 * conversions from whole numbers to doubles wait for what the call before left in a register. */
#include <gsl/gsl_poly.h>
#include <math.h>

#include "woolyard.h"

/* Document 01, "Replies". */
#define WARMEST 1000000
#define LOWEST_PASCALS 10000
#define HIGHEST_PASCALS 50000000

/* Of each fluid, by its number: documents 01 and 02, temperatures in millikelvin. Hydrogen's critical constants depend on the temperature
 * and are worked out in the call. What the other checks know of the fluids is in ../second/src/state.rs; this is C, and so a second table:
 * a further fluid is an entry in both. */
static const struct {
    uint64_t coldest;
    double critical_temperature, critical_pressure, molar_mass;
} fluids[] = {
    [WOOLYARD_PARAHYDROGEN] = {14000, 0, 0, 2.01594},
    [WOOLYARD_OXYGEN] = {56000, 154576, 5042000, 31.9988},
    [WOOLYARD_NITROGEN] = {64000, 126192, 3395800, 28.0134},
};

static uint64_t refused(uint64_t number, double figures[5]) {
    for (int place = 0; place < 5; place++)
        figures[place] = 0;
    return number;
}

/* Compressibilities: the smallest positive and the largest real root. */
struct roots {
    double dense;
    double gas;
};

/* Of the Redlich-Kwong cubic, TM-564, (2.1-11). GSL answers one real root or three, smallest first. */
static inline struct roots roots(double a, double b) {
    double first, second, third;
    if (gsl_poly_solve_cubic(-1, a - b * b - b, -a * b, &first, &second, &third) == 1)
        return (struct roots){first, first};
    return (struct roots){first > 0 ? first : second > 0 ? second : third, third};
}

double peer_gas_root(double a, double b) { return roots(a, b).gas; }

/* The figures lie as those of woolyard_state do; the roots are compressibilities. */
uint64_t peer_state(uint64_t fluid, uint64_t millikelvin, uint64_t pascals, double figures[5]) {
    if (fluid >= sizeof fluids / sizeof *fluids)
        return refused(WOOLYARD_NO_SUCH_FLUID, figures);
    if (millikelvin < fluids[fluid].coldest)
        return refused(WOOLYARD_TEMPERATURE_TOO_LOW, figures);
    if (millikelvin > WARMEST)
        return refused(WOOLYARD_TEMPERATURE_TOO_HIGH, figures);
    if (pascals < LOWEST_PASCALS)
        return refused(WOOLYARD_PRESSURE_TOO_LOW, figures);
    if (pascals > HIGHEST_PASCALS)
        return refused(WOOLYARD_PRESSURE_TOO_HIGH, figures);

    double temperature = (int64_t)millikelvin, pressure = (int64_t)pascals;
    double critical_temperature = fluids[fluid].critical_temperature, critical_pressure = fluids[fluid].critical_pressure;
    if (fluid == WOOLYARD_PARAHYDROGEN) {
        double m = 201594 * temperature;
        critical_temperature = 43600 * m / (m + 2180000000.0);
        critical_pressure = 2046765 * m / (m + 4420000000.0);
    }
    double t = temperature / critical_temperature, p = pressure / critical_pressure;
    struct roots root = roots(0.42748 * p / (t * t * sqrt(t)), 0.08664 * p / t);

    /* At compressibility 1, from millikelvin to grams. */
    double ideal_density = fluids[fluid].molar_mass * (1e6 / 8314.462618) * pressure / temperature;
    figures[WOOLYARD_KIND] = root.gas == root.dense ? WOOLYARD_KIND_ONE : WOOLYARD_KIND_SPLIT;
    figures[WOOLYARD_GAS_ROOT] = root.gas;
    figures[WOOLYARD_DENSE_ROOT] = root.dense;
    figures[WOOLYARD_GAS_DENSITY] = ideal_density / root.gas;
    figures[WOOLYARD_DENSE_DENSITY] = ideal_density / root.dense;
    return WOOLYARD_ANSWERED;
}
