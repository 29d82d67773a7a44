// Tests of zaxmonth.hpp; the last line is 'N passed, M failed'.
//     c++ -std=c++17 tests.cpp $(pkg-config --cflags --libs zaxmonth) -o tests
//     ./tests ../../examples/chromium-audio-offer.sdp ../../scripts/c_tests/streams.sdp
#include "zaxmonth.hpp"

#include <cstdio>
#include <fstream>
#include <iterator>

static int passed, failed;

template <class Found, class Wanted> static void is(const char *what, const Found &found, const Wanted &wanted)
{
    const bool is_right = found == wanted;
    passed += is_right, failed += !is_right;
    if (!is_right)
        std::printf("tests.cpp: %s is another\n", what);
}

// The status that a call throws; ZAX_OK where it throws none.
template <class Call> static zax_status thrown(Call call)
{
    try {
        call();
        return ZAX_OK;
    } catch (const zaxmonth::Error &error) {
        return error.status();
    }
}

static zaxmonth::Exchange side()
{
    zaxmonth::OwnSide own;
    own.ice_ufrag = "ansr", own.ice_pwd = "0123456789abcdef01234567", own.fingerprint = "sha-256 01:23";
    return zaxmonth::Exchange(own, zaxmonth::Config());
}

// Whether an offer, which the other side answers, has the line.
static bool offers(zaxmonth::Exchange &here, zaxmonth::Exchange &there, const char *line)
{
    const auto offer = here.create_offer().text();
    here.accept_answer(there.accept_offer(offer).text());
    return offer.find(std::string("\r\n") + line + "\r\n") != std::string::npos;
}

static void directions()
{
    auto here = side(), there = side();
    here.add_media(ZAX_AUDIO, ZAX_SENDRECV);
    is("an offer", offers(here, there, "a=sendrecv"), true);
    here.set_direction("0", ZAX_INACTIVE);
    here.set_direction("1", ZAX_SENDRECV);
    is("no direction", thrown([&] { here.set_direction("0", static_cast<zax_direction>(4)); }), ZAX_E_ARGUMENT);
    is("a long mid", thrown([&] { here.set_direction("0123456789abcdef0", ZAX_SENDRECV); }), ZAX_E_ARGUMENT);
    is("a mid that is no text", thrown([&] { here.set_direction("\xff", ZAX_SENDRECV); }), ZAX_E_UTF8);
    is("an offer that holds", offers(here, there, "a=inactive"), true);
    here.set_direction("0", ZAX_SENDONLY);
    is("an offer that resumes", offers(here, there, "a=sendonly"), true);
}

static zaxmonth::Session read(const char *path)
{
    std::ifstream file(path, std::ios::binary);
    return zaxmonth::Session(std::string(std::istreambuf_iterator<char>(file), {}));
}

// What a description says of its sections and of its transport.
static void facts(const char *path, const char *without)
{
    const auto session = read(path), other = read(without);
    const auto section = session.section(0);
    is("what a section carries", section.kind + section.protocol + section.disabled, ZAX_AUDIO);
    is("its direction and its role", section.direction * 10 + section.setup, ZAX_SENDRECV * 10 + ZAX_ACTPASS);
    is("whether it is writable", session.is_writable(0), true);
    is("no section", thrown([&] { session.section(1); }), ZAX_E_SECTION);
    is("credentials", session.ice_ufrag() + " " + session.ice_pwd(), "yf/6 7g8S/bjynZu683rC6kNE6Y/l");
    is("a fingerprint", session.fingerprint().substr(0, 13), "sha-256 89:EB");
    is("the role of a session", session.setup(), ZAX_ACTPASS);
    is("candidates", session.candidates().size(), 4u);
    is("one of them", session.candidates().at(1), "candidate:1435511020 1 udp 2122194687 198.51.100.7 43652 typ host");
    is("no transport", other.ice_ufrag() + other.ice_pwd() + other.fingerprint(), "");
    is("no role and no candidates", other.setup() + other.candidates().size(), 0u);
}

// What a section says of streams; the second says nothing of them.
static void streams(const char *path)
{
    const auto session = read(path);
    is("a stream and its track", session.msid(0), "stream track one");
    is("no stream", session.msid(1), "");
    const auto extensions = session.extensions(0);
    is("header extensions", extensions.size(), 3u);
    is("the number of one", extensions.at(1).id, 14);
    is("its URI", session.extension_uri(0, 1), "urn:ietf:params:rtp-hdrext:sdes:rtp-stream-id");
    is("no header extensions", session.extensions(1).size(), 0u);
    is("the URI of none", thrown([&] { session.extension_uri(0, 3); }), ZAX_E_SECTION);
    const auto rids = session.rids(0);
    is("rids", rids.size(), 3u);
    is("one that is received", rids.at(2).direction, ZAX_RECVONLY);
    is("its name", session.rid_name(0, 2), "back");
    is("what another is restricted to", session.rid_restrictions(0, 1), "pt=96,97;max-width=320;max-fps=15");
    const auto layers = session.layers(0);
    is("layers", layers.size(), 3u);
    is("one that is paused", layers.at(1).paused, 1);
    is("the name of a layer", session.layer_name(0, 1), "lo");
    is("no rids and no layers", session.rids(1).size() + session.layers(1).size(), 0u);
    const auto sources = session.sources(0);
    is("sources", sources.size(), 3u);
    is("what a source repairs", sources.at(2).repairs, 11u);
    is("its endpoint", session.source_cname(0, 0), "end point");
    is("its stream and its track", session.source_stream(0, 0) + " " + session.source_track(0, 0), "stream track");
    const auto groups = session.source_groups(0);
    is("sources in groups", groups.size(), 4u);
    is("one in the second", groups.at(3).group * 100 + groups.at(3).ssrc, 112u);
    is("what that is", session.group_semantics(0, 1), "SIM");
    is("no sources", session.sources(1).size() + session.source_groups(1).size(), 0u);
    is("the streams of no section", thrown([&] { session.msid(2); }), ZAX_E_SECTION);
}

int main(int count, char **words)
{
    if (count != 3)
        return 2;
    directions();
    facts(words[1], words[2]);
    streams(words[2]);
    std::printf("%d passed, %d failed\n", passed, failed);
    return failed != 0;
}
