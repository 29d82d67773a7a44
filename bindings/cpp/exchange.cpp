// Answers an offer, as the side that a file describes:   exchange OFFER OWN
//     c++ -std=c++17 exchange.cpp $(pkg-config --cflags --libs zaxmonth) -o exchange
#include "zaxmonth.hpp"

#include <cstdio>
#include <fstream>
#include <iterator>

// What this side says of itself, by lines of a word and its value (examples/own-side.txt).
static zaxmonth::OwnSide side_of(std::istream &lines)
{
    zaxmonth::OwnSide own;
    for (std::string word, value; lines >> word && std::getline(lines >> std::ws, value);) {
        if (word == "session-id")
            own.session_id = std::stoull(value);
        else if (word == "ufrag")
            own.ice_ufrag = value;
        else if (word == "pwd")
            own.ice_pwd = value;
        else if (word == "fingerprint")
            own.fingerprint = value;
        else if (word == "stream")
            own.stream_id = value;
        else if (word == "candidate")
            own.candidates.push_back(value);
        else if (word == "extension")
            own.extensions.push_back(value);
    }
    return own;
}

int main(int count, char **words)
{
    if (count != 3)
        return std::fputs("usage: exchange OFFER OWN\n", stderr), 2;
    std::ifstream file(words[1], std::ios::binary), side(words[2]);
    const std::string offer{std::istreambuf_iterator<char>(file), {}};
    try {
        zaxmonth::Exchange exchange(side_of(side), zaxmonth::Config());
        const auto answer = exchange.accept_offer(offer).text();
        std::fwrite(answer.data(), 1, answer.size(), stdout);
    } catch (const std::exception &error) {
        return std::fprintf(stderr, "%s\n", error.what()), 1;
    }
    return 0;
}
