// A pull of three load steps on two pads, from C++, with a tally of the day. Each step starts from the loads of the step before.
#include <array>
#include <cstdio>
#include <limits>

#include "piskorlu.h"

namespace {

constexpr std::size_t pads = 2;
constexpr double unlimited = std::numeric_limits<double>::infinity();

struct Tally {
    uint32_t counts[PISKORLU_REPORT_COUNTS] = PISKORLU_REPORT_OF_NO_SOLVE;
    double residual = 0.0;
};

struct Answer {
    uint32_t number = 0;
    std::array<uint8_t, pads> states{};
    std::array<std::size_t, pads> rows{};
    std::array<std::size_t, PISKORLU_SOLVE_COUNTS> counts{};
    double residual = 0.0;
};

Answer solve(const std::array<double, pads> &u_free, std::array<double, pads> &nu, Tally &tally)
{
    static const std::array<double, pads * pads> w{{2.0, 1.0, 1.0, 2.0}};
    static const std::array<double, pads> lo{{0.0, 0.0}}, hi{{unlimited, unlimited}}, scale{{10.0, 10.0}};
    std::array<double, PISKORLU_SOLVE_WORKSPACE> workspace;
    Answer a;
    a.number = piskorlu_tallied(tally.counts, PISKORLU_REPORT_COUNTS, &tally.residual, 1, w.data(), w.size(), u_free.data(), pads, lo.data(),
                                pads, hi.data(), pads, scale.data(), pads, nullptr, 0, 0.0, nu.data(), pads, a.states.data(), pads, a.rows.data(),
                                pads, workspace.data(), workspace.size(), a.counts.data(), a.counts.size(), &a.residual, 1);
    return a;
}

}  // namespace

int main()
{
    if (!piskorlu_float_environment_ok()) {
        std::fprintf(stderr, "floating point is not as the solver needs it\n");
        return 1;
    }
    Tally day;
    std::array<double, pads> nu{{0.0, 0.0}};
    for (double ram : {1.0, 2.0, 3.0}) {
        const std::array<double, pads> u_free{{-2.0 * ram, 3.0 - 3.0 * ram}};
        const Answer a = solve(u_free, nu, day);
        if (a.number != PISKORLU_ACCEPTED || !piskorlu_usable(a.counts.data(), a.residual, nu.data(), pads, 1e-9)) {
            std::fprintf(stderr, "step %g: %s\n", ram, piskorlu_number_in_words(a.number));
            return 1;
        }
        std::printf("step %g: %g %s, %g %s\n", ram, nu[0], piskorlu_state_in_words(a.states[0]), nu[1], piskorlu_state_in_words(a.states[1]));
    }
    std::printf("%u solves, %u sweeps\n", day.counts[PISKORLU_REPORT_INCREMENTS], day.counts[PISKORLU_REPORT_SWEEPS]);
    return 0;
}
