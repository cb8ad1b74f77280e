/*
 * Checks a plan file as the check program of document 01 does: 1,024 rows, a budget of 1,000,000, a run buffer of 4,096 bytes.
 *
 *     c++ -Iinclude examples/cpp/check.cpp target/staticlib/libbolfrega.a -o check
 *     ./check samples/plan-b.plan
 *
 * Exit status: 0 holds, 1 broken, 2 no answer (the file cannot be read, or the answer not written), 3 refused, 4 full or spent,
 * 5 empty.
 */
#include "bolfrega.h"

#include <array>
#include <cstdint>
#include <fstream>
#include <iostream>
#include <vector>

namespace {

/* What a check gave: the number, the details, and the run at the front of the buffer. */
struct Checked {
    std::uint64_t number;
    std::array<std::uint64_t, BOLFREGA_DETAILS> details;
    std::vector<std::uint8_t> buffer;
};

Checked check(const std::vector<std::uint8_t> &file)
{
    Checked checked{0, {}, std::vector<std::uint8_t>(BOLFREGA_PROGRAM_ROOM)};
    checked.number = bolfrega_check(file.data(), file.size(), BOLFREGA_PROGRAM_ROWS, BOLFREGA_PROGRAM_BUDGET, checked.details.data(),
                                    checked.buffer.data(), checked.buffer.size());
    return checked;
}

/* Lines 2 and 3: row, pairs and length, and then the step codes or that the run is not in the buffer. */
void print_broken(const Checked &checked)
{
    const auto &details = checked.details;
    std::cout << details[BOLFREGA_ROW] << ' ' << details[BOLFREGA_PAIRS] << ' ' << details[BOLFREGA_LENGTH] << '\n';
    if (details[BOLFREGA_REFUSED] != 0) {
        std::cout << "refused " << details[BOLFREGA_REFUSED] << '\n';
        return;
    }
    for (std::size_t i = 0; i < details[BOLFREGA_LENGTH]; i++)
        std::cout << (i == 0 ? "" : " ") << unsigned{checked.buffer[i]};
    std::cout << '\n';
}

/* Prints a verdict's line. */
int print_verdict(const Checked &checked, const char *word, int status)
{
    const auto &details = checked.details;
    std::cout << word << ' ' << details[BOLFREGA_JOINS] << ' ' << details[BOLFREGA_USED] << ' ' << details[BOLFREGA_PASS] << '\n';
    return status;
}

/* Prints the answer. Returns the exit status that goes with it. */
int print(const Checked &checked)
{
    switch (checked.number) {
    case BOLFREGA_HOLDS:
        return print_verdict(checked, "holds", 0);
    case BOLFREGA_BROKEN:
        print_verdict(checked, "broken", 1);
        print_broken(checked);
        return 1;
    case BOLFREGA_FULL:
        return print_verdict(checked, "full", 4);
    case BOLFREGA_SPENT:
        return print_verdict(checked, "spent", 4);
    case BOLFREGA_EMPTY:
        return print_verdict(checked, "empty", 5);
    default:
        std::cerr << "check: " << bolfrega_message(checked.number) << " (" << checked.number << ")\n";
        /* A number that is no refusal either is no answer. */
        if (checked.number < 1 || checked.number > 99)
            return 2;
        std::cout << "refused " << checked.number << '\n';
        return 3;
    }
}

} // namespace

int main(int argc, char **argv)
{
    if (argc != 2) {
        std::cerr << "usage: check FILE\n";
        return 2;
    }
    std::ifstream stream(argv[1], std::ios::binary);
    std::vector<std::uint8_t> file;
    std::array<char, 4096> chunk;
    while (stream.read(chunk.data(), chunk.size()), stream.gcount() > 0)
        file.insert(file.end(), chunk.begin(), chunk.begin() + stream.gcount());
    if (!stream.is_open() || stream.bad()) {
        std::cerr << "check: " << argv[1] << " cannot be read\n";
        return 2;
    }
    const int status = print(check(file));
    if (!std::cout.flush()) {
        std::cerr << "check: the answer cannot be written\n";
        return 2;
    }
    return status;
}
