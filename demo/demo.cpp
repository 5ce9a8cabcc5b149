// A list of proposed places for one probe, and a path down a refined cell, from C++.
#include <array>
#include <cstdint>
#include <cstdio>
#include "isnemgul.h"

namespace {

// The cube [-2,2] on each axis, with the probe at the origin.
std::array<double, 24> cube() {
    std::array<double, 24> corners;
    for (std::size_t k = 0; k < 8; ++k) {
        const bool upper[3] = {k % 4 == 1 || k % 4 == 2, k % 4 > 1, k > 3};
        for (std::size_t axis = 0; axis < 3; ++axis)
            corners[3 * k + axis] = upper[axis] ? 2 : -2;
    }
    return corners;
}

void say_refused(std::uint32_t answer) {
    std::printf("refused %u: %s\n", answer, isn_refusal_text(answer));
}

void judge() {
    const auto corners = cube();
    const std::array<isn_proposal, 4> list = {{{{0.5, 0, 0}, 1}, {{0.5, 0, 0}, 0.5}, {{2, 0, 0}, 1}, {{0, 0, 0}, -1}}};
    std::array<std::uint32_t, list.size()> answers;
    std::uint32_t accepted = 0;
    const auto refusal = isn_hex_check_proposals(corners.data(), list.data(), list.size(), answers.data(), answers.size(), &accepted);
    if (refusal != ISN_OK)
        return say_refused(refusal);
    std::printf("%u of %zu proposals accepted:", accepted, list.size());
    for (std::uint32_t answer : answers)
        std::printf(" %u", answer);
    std::printf("\n");
}

void descend() {
    const std::array<std::uint32_t, 3> path = {{6, 0, 3}};
    std::int32_t at[3];
    const auto refusal = isn_descendant(path.data(), path.size(), 7, at);
    if (refusal != ISN_OK)
        say_refused(refusal);
    else
        std::printf("corner 7 of child 3 of child 0 of child 6: (%d, %d, %d) / 8\n", at[0], at[1], at[2]);
}

} // namespace

int main() {
    judge();
    descend();
}
