// zaxmonth.hpp: zaxmonth.h for C++17, with handles that free themselves and exceptions in place of statuses. One file, nothing to link
// besides libzaxmonth.
#ifndef ZAXMONTH_HPP
#define ZAXMONTH_HPP

#include <zaxmonth.h>

#include <memory>
#include <new>
#include <stdexcept>
#include <string>
#include <string_view>
#include <utility>
#include <vector>

namespace zaxmonth {

// Why a call failed. Out of memory is std::bad_alloc.
class Error : public std::runtime_error {
  public:
    Error(zax_status status, const std::string &message) : std::runtime_error(message), status_(status) {}
    zax_status status() const { return status_; }

  private:
    zax_status status_;
};

namespace detail {

inline void check(zax_status status, const char *message = "")
{
    static const char *const said[] = {"", "the text describes no session", "the text is not UTF-8", "", "", "there is no such section or item",
                                       "nothing is agreed that could be printed there", "an argument is none that the library takes"};
    if (status == ZAX_E_MEMORY)
        throw std::bad_alloc();
    if (status != ZAX_OK)
        throw Error(status, *message ? message : status <= ZAX_E_ARGUMENT ? said[status] : "the call is refused");
}

// What a call writes, in room that is as large as it asks for.
template <class Items, class Call> Items filled(Call call)
{
    Items room;
    size_t needed = 0;
    zax_status status = call(room.data(), 0, &needed);
    while (status == ZAX_E_ROOM) {
        room.resize(needed);
        status = call(room.data(), room.size(), &needed);
    }
    check(status);
    room.resize(needed);
    return room;
}

} // namespace detail

// What is found in a text, whether it describes a session or not, as JSON: an array of objects with line, column, severity, code and message
// (docs/LINT.md).
inline std::string findings(std::string_view text)
{
    return detail::filled<std::string>(
        [&](char *room, size_t cap, size_t *needed) { return zax_findings(text.data(), text.size(), room, cap, needed); });
}

// A description. One call at a time uses it.
class Session {
  public:
    explicit Session(std::string_view text)
    {
        zax_session *made = nullptr;
        zax_error error;
        detail::check(zax_read(text.data(), text.size(), &made, &error), error.message);
        handle_.reset(made);
        ended_at_ = error.line;
    }
    // The line at which reading ended; 0 where all was read.
    uint32_t ended_at() const { return ended_at_; }
    size_t sections() const { return zax_sections(get()); }
    std::string text() const { return said<std::string>(zax_print); }
    std::string mid(size_t section) const { return said<std::string>(zax_section_mid, section); }
    // The ids of a stream and of a track with a space between them; empty where the section has none.
    std::string msid(size_t section) const { return said<std::string>(zax_section_msid, section); }
    std::vector<zax_row> rows(size_t section) const { return said<std::vector<zax_row>>(zax_rows, section); }
    std::string codec(size_t section, size_t row) const { return said<std::string>(zax_row_codec, section, row); }
    std::string fmtp(size_t section, size_t row) const { return said<std::string>(zax_row_fmtp, section, row); }
    std::vector<zax_extension> extensions(size_t section) const { return said<std::vector<zax_extension>>(zax_section_extensions, section); }
    std::string extension_uri(size_t section, size_t extension) const { return said<std::string>(zax_extension_uri, section, extension); }
    std::vector<zax_rid> rids(size_t section) const { return said<std::vector<zax_rid>>(zax_section_rids, section); }
    std::string rid_name(size_t section, size_t rid) const { return said<std::string>(zax_rid_name, section, rid); }
    std::string rid_restrictions(size_t section, size_t rid) const { return said<std::string>(zax_rid_restrictions, section, rid); }
    std::vector<zax_layer> layers(size_t section) const { return said<std::vector<zax_layer>>(zax_section_layers, section); }
    std::string layer_name(size_t section, size_t layer) const { return said<std::string>(zax_layer_name, section, layer); }
    std::vector<zax_source> sources(size_t section) const { return said<std::vector<zax_source>>(zax_section_sources, section); }
    std::string source_cname(size_t section, size_t source) const { return said<std::string>(zax_source_cname, section, source); }
    std::string source_stream(size_t section, size_t source) const { return said<std::string>(zax_source_stream, section, source); }
    std::string source_track(size_t section, size_t source) const { return said<std::string>(zax_source_track, section, source); }
    std::vector<zax_group_source> source_groups(size_t section) const
    {
        return said<std::vector<zax_group_source>>(zax_section_source_groups, section);
    }
    std::string group_semantics(size_t section, size_t group) const { return said<std::string>(zax_group_semantics, section, group); }
    // What a section is, in numbers.
    zax_section section(size_t section) const { return answered<zax_section>([&](zax_section *to) { return zax_section_info(get(), section, to); }); }
    // Whether Config::answer may write into the section.
    bool is_writable(size_t section) const { return answered<int>([&](int *to) { return zax_is_writable(get(), section, to); }) != 0; }
    // Of the session, else of the first section that says it; empty, or ZAX_NO_SETUP, where none does.
    std::string ice_ufrag() const { return said<std::string>(zax_ice_ufrag); }
    std::string ice_pwd() const { return said<std::string>(zax_ice_pwd); }
    std::string fingerprint() const { return said<std::string>(zax_fingerprint); }
    zax_setup setup() const
    {
        return static_cast<zax_setup>(answered<uint32_t>([&](uint32_t *to) { return zax_session_setup(get(), to); }));
    }
    // Each once, without "a=".
    std::vector<std::string> candidates() const
    {
        std::vector<std::string> found(answered<size_t>([&](size_t *to) { return zax_candidates(get(), to); }));
        for (size_t i = 0; i < found.size(); i++)
            found[i] = said<std::string>(zax_candidate, i);
        return found;
    }
    std::string json() const { return said<std::string>(zax_json); }
    zax_session *get() const { return handle_.get(); }

  protected:
    explicit Session(zax_session *made) : handle_(made) {}

  private:
    // What a call writes of the description, or of what stands at such places of it.
    template <class Items, class Call, class... Places> Items said(Call call, Places... places) const
    {
        return detail::filled<Items>([&](typename Items::value_type *room, size_t cap, size_t *needed) {
            return call(get(), places..., room, cap, needed);
        });
    }
    template <class Answer, class Call> static Answer answered(Call call)
    {
        Answer found{};
        detail::check(call(&found));
        return found;
    }
    struct Free {
        void operator()(zax_session *session) const { zax_session_free(session); }
    };
    std::unique_ptr<zax_session, Free> handle_;
    uint32_t ended_at_ = 0;
};

// What one side sends and receives, and what is agreed of it.
class Config {
  public:
    // With the default rows.
    Config() : Config(zax_config_defaults) {}
    // Without rows.
    static Config empty() { return Config(zax_config_empty); }
    // Takes all rows of a codec out and, where it is enabled, puts its default rows last, with RED where that is asked for.
    void enable(zax_codec codec, bool enabled = true, bool use_red = false)
    {
        detail::check(zax_config_enable(get(), codec, enabled, use_red));
    }
    // Adds a row at the end: channels are 0 where they aren't said, `rtx` is ZAX_NO_TYPE where there is none.
    void add(uint8_t pt, zax_codec codec, uint32_t clock_rate, uint8_t channels = 0, uint8_t rtx = ZAX_NO_TYPE, std::string_view fmtp = {})
    {
        detail::check(zax_config_add(get(), pt, rtx, codec, clock_rate, channels, fmtp.data(), fmtp.size()));
    }
    // The outcome of each round. A text has no more rounds than it has lines.
    std::vector<zax_outcome> negotiate(std::string_view text)
    {
        std::vector<zax_outcome> outcomes(text.size() / 2 + 1);
        size_t needed = 0;
        zax_error error;
        detail::check(zax_negotiate(get(), text.data(), text.size(), outcomes.data(), outcomes.size(), &needed, &error), error.message);
        outcomes.resize(needed);
        return outcomes;
    }
    std::vector<zax_row> rows() const
    {
        return detail::filled<std::vector<zax_row>>(
            [&](zax_row *room, size_t cap, size_t *needed) { return zax_config_rows(get(), room, cap, needed); });
    }
    // Puts the locked rows into a section of one's own description.
    void answer(Session &own, size_t section) { detail::check(zax_answer(get(), own.get(), section)); }
    zax_config *get() const { return handle_.get(); }
    // Gives up the handle.
    zax_config *release() { return handle_.release(); }

  private:
    explicit Config(zax_status (*make)(zax_config **))
    {
        zax_config *made = nullptr;
        detail::check(make(&made));
        handle_.reset(made);
    }
    struct Free {
        void operator()(zax_config *config) const { zax_config_free(config); }
    };
    std::unique_ptr<zax_config, Free> handle_;
};

// What a side says of itself, the same in each of its descriptions.
struct OwnSide {
    uint64_t session_id = 1; // in the o= line
    std::string ice_ufrag;
    std::string ice_pwd;
    std::string fingerprint;             // of its certificate: "sha-256 AB:CD:.."
    std::string stream_id = "-";         // of what it sends
    std::vector<std::string> extensions; // the header extensions that it knows: their URIs
    std::vector<std::string> candidates; // where it is reached: lines as browsers trickle them, with or without "a="
    bool has_channels = true;            // whether it takes data channels
    uint16_t sctp_port = 5000;
    uint64_t max_message_size = 262144;  // of data channels, in bytes; 0 for any
    zax_direction audio = ZAX_SENDRECV;  // what it is ready for
    zax_direction video = ZAX_SENDRECV;
    bool receives_simulcast = true;
};

namespace detail {

inline zax_slice slice(std::string_view text) { return {text.data(), text.size()}; }

inline std::vector<zax_slice> slices(const std::vector<std::string> &texts)
{
    std::vector<zax_slice> made;
    for (const auto &text : texts)
        made.push_back(slice(text));
    return made;
}

} // namespace detail

// An offer or an answer of a side, with its version: of two of a session the later has the greater.
class Description : public Session {
  public:
    uint64_t version() const { return version_; } // 1 at first
    // With this version in the o= line, as the other side is to get it.
    std::string text() const
    {
        return detail::filled<std::string>(
            [&](char *room, size_t cap, size_t *needed) { return zax_print_version(get(), version_, room, cap, needed); });
    }

  private:
    friend class Exchange;
    Description(zax_session *made, uint64_t version) : Session(made), version_(version) {}
    uint64_t version_;
};

// One side of a session: it answers offers, makes its own, and takes answers to them. Where a call throws, nothing has changed.
class Exchange {
  public:
    // With the rows of a configuration, which has no handle any more then; where this throws it is as it was.
    Exchange(const OwnSide &own, Config &&config)
    {
        const auto extensions = detail::slices(own.extensions), candidates = detail::slices(own.candidates);
        zax_own said{};
        said.session_id = own.session_id;
        said.ice_ufrag = detail::slice(own.ice_ufrag), said.ice_pwd = detail::slice(own.ice_pwd);
        said.fingerprint = detail::slice(own.fingerprint), said.stream_id = detail::slice(own.stream_id);
        said.extensions = extensions.data(), said.extension_count = extensions.size();
        said.candidates = candidates.data(), said.candidate_count = candidates.size();
        said.max_message_size = own.max_message_size, said.sctp_port = own.sctp_port, said.has_channels = own.has_channels;
        said.audio = own.audio, said.video = own.video, said.receives_simulcast = own.receives_simulcast;
        zax_exchange *made = nullptr;
        zax_error error;
        detail::check(zax_exchange_new(&said, config.get(), &made, &error), error.message);
        config.release();
        handle_.reset(made);
    }
    Description accept_offer(std::string_view offer)
    {
        return described([&](zax_session **made, uint64_t *version, zax_error *error) {
            return zax_accept_offer(get(), offer.data(), offer.size(), made, version, error);
        });
    }
    // Of what was added and what goes on; it waits for its answer then.
    Description create_offer()
    {
        return described(
            [&](zax_session **made, uint64_t *version, zax_error *error) { return zax_create_offer(get(), made, version, error); });
    }
    void accept_answer(std::string_view answer)
    {
        zax_error error;
        detail::check(zax_accept_answer(get(), answer.data(), answer.size(), &error), error.message);
    }
    // Drops the offer that waits for its answer; where none does, nothing changes.
    void rollback() { detail::check(zax_rollback(get())); }
    // Have the next offer add a section.
    void add_media(zax_kind kind, zax_direction direction)
    {
        zax_error error;
        detail::check(zax_add_media(get(), kind, direction, &error), error.message);
    }
    void add_channels()
    {
        zax_error error;
        detail::check(zax_add_channels(get(), &error), error.message);
    }
    // Has the next description say these credentials of ICE.
    void restart_ice(std::string_view ufrag, std::string_view pwd)
    {
        detail::check(zax_restart_ice(get(), detail::slice(ufrag), detail::slice(pwd)));
    }
    // Has the next description say this direction in the section of a mid, of at most 16 bytes, to hold its media and to resume it.
    void set_direction(std::string_view mid, zax_direction direction)
    {
        detail::check(zax_set_direction(get(), mid.data(), mid.size(), direction));
    }
    std::vector<zax_row> rows() const
    {
        return detail::filled<std::vector<zax_row>>(
            [&](zax_row *room, size_t cap, size_t *needed) { return zax_exchange_rows(get(), room, cap, needed); });
    }
    std::string codec(size_t row) const
    {
        return detail::filled<std::string>(
            [&](char *room, size_t cap, size_t *needed) { return zax_exchange_row_codec(get(), row, room, cap, needed); });
    }
    std::string fmtp(size_t row) const
    {
        return detail::filled<std::string>(
            [&](char *room, size_t cap, size_t *needed) { return zax_exchange_row_fmtp(get(), row, room, cap, needed); });
    }
    // ZAX_STABLE or ZAX_HAVE_LOCAL_OFFER.
    uint32_t state() const
    {
        uint32_t found = 0;
        detail::check(zax_exchange_state(get(), &found));
        return found;
    }
    zax_exchange *get() const { return handle_.get(); }

  private:
    template <class Call> static Description described(Call call)
    {
        zax_session *made = nullptr;
        uint64_t version = 0;
        zax_error error;
        detail::check(call(&made, &version, &error), error.message);
        return Description(made, version);
    }
    struct Free {
        void operator()(zax_exchange *exchange) const { zax_exchange_free(exchange); }
    };
    std::unique_ptr<zax_exchange, Free> handle_;
};

} // namespace zaxmonth

#endif
