// Prints the rows of an offer:   rows FILE
//     c++ -std=c++17 rows.cpp $(pkg-config --cflags --libs zaxmonth) -o rows
#include "zaxmonth.hpp"

#include <cstdio>
#include <fstream>
#include <iterator>

int main(int count, char **words)
{
    if (count != 2)
        return std::fputs("usage: rows FILE\n", stderr), 2;
    std::ifstream file(words[1], std::ios::binary);
    const std::string text{std::istreambuf_iterator<char>(file), {}};
    try {
        const zaxmonth::Session session(text);
        for (size_t section = 0; section < session.sections(); section++) {
            const auto mid = session.mid(section);
            size_t i = 0;
            for (const auto &row : session.rows(section)) {
                const auto codec = session.codec(section, i), fmtp = session.fmtp(section, i);
                std::printf("mid %s: payload type %d, %s at %u Hz%s%s\n", mid.c_str(), row.pt, codec.c_str(), row.clock_rate,
                            fmtp.empty() ? "" : ", ", fmtp.c_str());
                i++;
            }
        }
    } catch (const std::exception &error) {
        return std::fprintf(stderr, "%s\n", error.what()), 1;
    }
    return 0;
}
