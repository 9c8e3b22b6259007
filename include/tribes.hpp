/* TRIBES for C++17: a server's end and a client's end as two types, each freed where it is let go. tribes.h, beside this file, says what
 * each call does and when it refuses; here a call answers a result, which holds what it gave or the refusal. No exception is thrown.
 *
 *     tribes::kinds kinds;
 *     kinds.add(8, {{0, 65535, 16}, {0, 65535, 16}});
 *     auto client = tribes::client::make(config, kinds);
 *     if (!client) return complain(client.why().words());
 *     client->sample(move);
 */
#ifndef TRIBES_HPP
#define TRIBES_HPP

#include "tribes.h"
#include <array>
#include <initializer_list>
#include <optional>
#include <string_view>
#include <type_traits>
#include <utility>
#include <vector>

namespace tribes {

/* Items that lie in a row, lent. */
template <class T> class span {
public:
    constexpr span() = default;
    constexpr span(T *at, std::size_t count) : at_(at), count_(count) {}
    template <class Row, class Item = std::remove_pointer_t<decltype(std::declval<Row &>().data())>,
              class = std::enable_if_t<std::is_convertible_v<Item (*)[], T (*)[]>>>
    constexpr span(Row &&row) : at_(row.data()), count_(row.size()) {}
    template <std::size_t N> constexpr span(T (&row)[N]) : at_(row), count_(N) {}
    constexpr T *data() const { return at_; }
    constexpr std::size_t size() const { return count_; }
    constexpr bool empty() const { return count_ == 0; }
    constexpr T *begin() const { return at_; }
    constexpr T *end() const { return at_ + count_; }
    constexpr T &operator[](std::size_t place) const { return at_[place]; }
    constexpr span first(std::size_t count) const { return span(at_, count); }

private:
    T *at_ = nullptr;
    std::size_t count_ = 0;
};

using bytes = span<const std::uint8_t>;
using place = span<std::uint8_t>;

inline bytes bytes_of(std::string_view text) { return bytes(reinterpret_cast<const std::uint8_t *>(text.data()), text.size()); }
inline std::string_view text_of(bytes some) { return {reinterpret_cast<const char *>(some.data()), some.size()}; }

/* Why a call did nothing: its code in tribes.h, and the numbers that it names. */
struct refusal {
    std::int32_t code = 0;
    std::uint32_t first = 0, second = 0;
    const char *words() const { return tribes_text(code); }
};

/* What a call gave, or why it did nothing. */
template <class T> class result {
public:
    result(T value) : value_(std::move(value)) {}
    result(refusal why) : why_(why) {}
    explicit operator bool() const { return value_.has_value(); }
    T &operator*() { return *value_; }
    const T &operator*() const { return *value_; }
    T *operator->() { return &*value_; }
    const T *operator->() const { return &*value_; }
    T value_or(T other) const { return value_ ? *value_ : other; }
    const refusal &why() const { return why_; }

private:
    std::optional<T> value_;
    refusal why_;
};

template <> class result<void> {
public:
    result() = default;
    result(refusal why) : why_(why) {}
    explicit operator bool() const { return why_.code == 0; }
    const refusal &why() const { return why_; }

private:
    refusal why_;
};

using config = tribes_config;
using field = tribes_field;
using object = tribes_object;
using counts = tribes_count;
using judged = tribes_judged;
using change = tribes_change;

/* The table of kinds that both ends are made with. */
class kinds {
public:
    /* A further kind, of this weight and with these fields; gives its number. */
    std::uint32_t add(std::uint8_t weight, std::initializer_list<field> fields) {
        kinds_.push_back({static_cast<std::uint32_t>(fields.size()), weight});
        fields_.insert(fields_.end(), fields);
        return static_cast<std::uint32_t>(kinds_.size() - 1);
    }
    span<const tribes_kind> rows() const { return kinds_; }
    span<const field> fields() const { return fields_; }

private:
    std::vector<tribes_kind> kinds_;
    std::vector<field> fields_;
};

/* An event that came. */
struct event {
    std::array<std::uint8_t, TRIBES_MAX_EVENT> data{};
    std::size_t size = 0;
    bool guaranteed = false;
    tribes::bytes bytes() const { return {data.data(), size}; }
    std::string_view text() const { return text_of(bytes()); }
};

/* A message of any length that came, or a short event. */
struct message {
    tribes::bytes bytes;
    bool short_event = false, guaranteed = false;
    std::string_view text() const { return text_of(bytes); }
};

/* Messages of any length over one end, and short events in one order with them. It goes with one end, from its first event on. */
class channel {
public:
    /* It holds so many pieces of 24 bytes that are still to be posted, for messages that come with at most `longest` bytes. */
    static result<channel> make(std::uint32_t places, std::uint32_t longest) {
        channel made;
        tribes_reason why{};
        if (tribes_channel_open(&made.handle_, places, longest, &why) < 0) return refusal{why.code, why.first, why.second};
        return result<channel>(std::move(made));
    }
    channel(const channel &) = delete;
    channel &operator=(const channel &) = delete;
    channel(channel &&other) noexcept : handle_(other.handle_) { other.handle_ = {}; }
    channel &operator=(channel &&other) noexcept {
        std::swap(handle_, other.handle_);
        return *this;
    }
    ~channel() { tribes_channel_free(&handle_); }

    /* Pieces that wait to be posted, and how many more may. */
    tribes_places places() {
        tribes_places all{};
        tribes_channel_counts(&handle_, &all);
        return all;
    }
    tribes_channel *handle() { return &handle_; }

    /* The refusal of a call that answered so: where an end or a channel was missing, the answer is all there is. */
    refusal why(std::int32_t code) {
        tribes_reason reason{};
        if (code == TRIBES_NO_END || tribes_channel_why(&handle_, &reason) < 0) return {code, 0, 0};
        return {reason.code, reason.first, reason.second};
    }

private:
    channel() = default;
    tribes_channel handle_{};
};

/* A copy of an object at the client. */
struct copy {
    std::uint32_t slot = 0, kind = 0, block = 0;
    std::array<std::int64_t, TRIBES_MAX_FIELDS> data{};
    std::size_t size = 0;
    span<const std::int64_t> values() const { return {data.data(), size}; }
};

/* A few items in the value itself. */
template <class T, std::size_t N> struct list {
    std::array<T, N> data{};
    std::uint32_t size = 0;
    const T *begin() const { return data.data(); }
    const T *end() const { return data.data() + size; }
    const T &operator[](std::size_t place) const { return data[place]; }
};
using moves = list<std::uint64_t, TRIBES_MAX_MOVES>;

/* What both ends have. An end may be moved to another owner; one that was moved away has no end behind it, and each call says so. */
class end {
public:
    end(const end &) = delete;
    end &operator=(const end &) = delete;
    end(end &&other) noexcept : handle_(other.handle_) { other.handle_ = {}; }
    end &operator=(end &&other) noexcept {
        std::swap(handle_, other.handle_);
        return *this;
    }

    /* Posts an event; gives its number where it is guaranteed. */
    result<std::uint32_t> post(bytes event, bool guaranteed = true) {
        std::uint32_t number = 0;
        std::int32_t code = tribes_post(&handle_, event.data(), event.size(), guaranteed, &number);
        return told(code, number);
    }
    result<std::uint32_t> post(std::string_view text, bool guaranteed = true) { return post(bytes_of(text), guaranteed); }

    /* The oldest event that waits. */
    std::optional<tribes::event> next_event() {
        tribes::event came;
        std::int32_t code = tribes_event(&handle_, came.data.data(), came.data.size(), &came.size);
        if (code <= 0) return std::nullopt;
        came.guaranteed = code == 2;
        return came;
    }

    /* Posts a message, or a short event, whole or not at all. */
    result<void> post(channel &to, bytes message, bool guaranteed = true) {
        return posted(to, tribes_post_message(&handle_, to.handle(), 1, message.data(), message.size(), guaranteed));
    }
    result<void> post(channel &to, std::string_view text, bool guaranteed = true) { return post(to, bytes_of(text), guaranteed); }
    result<void> post_short(channel &to, bytes event, bool guaranteed = true) {
        return posted(to, tribes_post_message(&handle_, to.handle(), 0, event.data(), event.size(), guaranteed));
    }

    /* The oldest message or short event that is whole, in that place, which has room for the channel's longest message. */
    result<std::optional<tribes::message>> next_message(channel &from, place out) {
        std::uint32_t kind = 0;
        std::size_t count = 0;
        std::int32_t code = tribes_message(&handle_, from.handle(), out.data(), out.size(), &kind, &count);
        std::optional<tribes::message> found;
        if (code < 0) return from.why(code);
        if (code > 0) found = tribes::message{bytes(out.data(), count), kind == 0, code == 2};
        return found;
    }

    /* The bytes of a block, in that place. */
    result<bytes> block(std::uint32_t number, place out) {
        std::size_t count = 0;
        std::int32_t code = tribes_block(&handle_, number, out.data(), out.size(), &count);
        return told(code, bytes(out.data(), count));
    }

    tribes::counts counts() {
        tribes::counts all{};
        tribes_counts(&handle_, &all);
        return all;
    }

    /* What became of the data packets that the last datagram judged. */
    list<judged, TRIBES_MAX_JUDGED> verdicts() {
        list<judged, TRIBES_MAX_JUDGED> all;
        tribes_verdicts(&handle_, all.data.data(), all.data.size(), &all.size);
        return all;
    }

    /* The handle, for a call of tribes.h that is not here. */
    tribes_end *handle() { return &handle_; }

protected:
    end() = default;
    ~end() { tribes_free(&handle_); }

    /* The refusal of a call that answered so: where no end is behind the handle, the answer is all there is. */
    refusal why(std::int32_t code) {
        tribes_reason reason{};
        if (tribes_why(&handle_, &reason) < 0) return {code, 0, 0};
        return {reason.code, reason.first, reason.second};
    }
    template <class T> result<T> told(std::int32_t code, T value) {
        if (code < 0) return why(code);
        return value;
    }
    result<void> told(std::int32_t code) {
        if (code < 0) return why(code);
        return {};
    }
    static result<void> posted(channel &to, std::int32_t code) {
        if (code < 0) return to.why(code);
        return {};
    }
    result<std::uint32_t> took(bytes datagram, std::uint32_t room) {
        std::uint32_t moves = 0;
        std::int32_t code = tribes_arrive(&handle_, datagram.data(), datagram.size(), room, &moves);
        return told(code, moves);
    }
    result<bytes> packed(span<const std::int64_t> values, place out) {
        std::size_t count = 0;
        std::int32_t code = tribes_pack(&handle_, values.data(), values.size(), out.data(), out.size(), &count);
        return told(code, bytes(out.data(), code > 0 ? count : 0));
    }
    void lists_moves(std::int32_t (*call)(tribes_end *, std::uint64_t *, std::size_t, std::uint32_t *), moves &all) {
        call(&handle_, all.data.data(), all.data.size(), &all.size);
    }

    tribes_end handle_{};
};

/* The server's end of the connection to one client. */
class server : public end {
public:
    static result<server> make(const config &config, const kinds &kinds, const std::vector<std::string_view> &blocks) {
        std::vector<std::uint8_t> all;
        std::vector<std::uint32_t> lengths;
        for (std::string_view block : blocks) {
            all.insert(all.end(), block.begin(), block.end());
            lengths.push_back(static_cast<std::uint32_t>(block.size()));
        }
        server made;
        tribes_reason why{};
        std::int32_t code = tribes_server(&made.handle_, &config, kinds.rows().data(), kinds.rows().size(), kinds.fields().data(),
                                          kinds.fields().size(), all.data(), all.size(), lengths.data(), lengths.size(), &why);
        if (code < 0) return refusal{why.code, why.first, why.second};
        return result<server>(std::move(made));
    }

    /* Shows an object; gives the number of its period. */
    result<std::uint32_t> show(const tribes::object &object) {
        std::uint32_t n = 0;
        std::int32_t code = tribes_show(&handle_, &object, &n);
        return told(code, n);
    }
    result<void> hide(std::uint32_t n) { return told(tribes_hide(&handle_, n)); }
    result<void> near(std::uint32_t n, std::uint32_t level) { return told(tribes_near(&handle_, n, level)); }
    /* Fields have new values: bit f for field f. */
    result<void> changed(std::uint32_t n, std::uint32_t fields) { return told(tribes_changed(&handle_, n, fields)); }
    /* Whether the client has the newest value of a field. */
    result<bool> settled(std::uint32_t n, std::uint32_t field) {
        std::int32_t code = tribes_settled(&handle_, n, field);
        return told(code, code == 1);
    }
    result<std::optional<std::uint32_t>> slot(std::uint32_t n) {
        std::uint32_t held = 0;
        std::int32_t code = tribes_slot(&handle_, n, &held);
        return told(code, code == 1 ? std::optional(held) : std::nullopt);
    }

    /* The next datagram, in that place, with the values that it asks for: value(n, field) is that of a field of a period. No byte where
     * the connection is worn. */
    template <class Value> result<bytes> pack(place out, Value value) {
        std::array<tribes_ask, TRIBES_MAX_ASKS> asks;
        std::array<std::int64_t, TRIBES_MAX_ASKS> values;
        std::size_t count = 0;
        std::int32_t code = tribes_plan(&handle_, asks.data(), asks.size(), &count);
        if (code < 0) return why(code);
        for (std::size_t i = 0; i < count; i++) values[i] = value(asks[i].n, asks[i].field);
        return packed({values.data(), count}, out);
    }

    /* Takes a datagram, where so many further moves have a place; gives how many it brought. */
    result<std::uint32_t> arrive(bytes datagram, std::uint32_t room = TRIBES_MAX_MOVES) { return took(datagram, room); }

    /* The moves that the last datagram brought. */
    tribes::moves moves() {
        tribes::moves all;
        lists_moves(tribes_moves, all);
        return all;
    }
};

/* A client's end of its connection. */
class client : public end {
public:
    static result<client> make(const config &config, const kinds &kinds) {
        client made;
        tribes_reason why{};
        std::int32_t code = tribes_client(&made.handle_, &config, kinds.rows().data(), kinds.rows().size(), kinds.fields().data(),
                                          kinds.fields().size(), &why);
        if (code < 0) return refusal{why.code, why.first, why.second};
        return result<client>(std::move(made));
    }

    /* Takes up a move; gives its number. */
    result<std::uint32_t> sample(std::uint64_t move) {
        std::uint32_t number = 0;
        std::int32_t code = tribes_sample(&handle_, move, &number);
        return told(code, number);
    }
    /* The moves that the server isn't known to have, the oldest first. */
    tribes::moves pending() {
        tribes::moves all;
        lists_moves(tribes_pending, all);
        return all;
    }
    /* The next datagram, in that place; no byte where the connection is worn. */
    result<bytes> pack(place out) { return packed({}, out); }
    result<void> arrive(bytes datagram) {
        auto came = took(datagram, 0);
        if (!came) return came.why();
        return {};
    }

    /* The slot of the client's own object. */
    std::optional<std::uint32_t> control() {
        std::uint32_t slot = 0;
        if (tribes_control(&handle_, &slot) != 1) return std::nullopt;
        return slot;
    }
    /* The copy in a slot. */
    std::optional<tribes::copy> copy(std::uint32_t slot) {
        tribes_copied copied{};
        tribes::copy found;
        if (tribes_copy(&handle_, slot, &copied, found.data.data(), found.data.size()) < 0) return std::nullopt;
        found.slot = slot, found.kind = copied.kind, found.block = copied.block, found.size = copied.fields;
        return found;
    }
    /* Calls see(copy) for each copy, by rising slot. */
    template <class See> void each_copy(See see) {
        std::uint32_t slot = 0;
        for (std::uint32_t from = 0; tribes_next_copy(&handle_, from, &slot) == 1; from = slot + 1)
            if (auto found = copy(slot)) see(*found);
    }
    /* What the last datagram did to slots. */
    list<change, TRIBES_MAX_CHANGES> changes() {
        list<change, TRIBES_MAX_CHANGES> all;
        tribes_changes(&handle_, all.data.data(), all.data.size(), &all.size);
        return all;
    }
};

/* ---- what a client draws (docs/timeline.md) */

using shape = tribes_shape;
using pace = tribes_pace;
using way = tribes_way;
inline constexpr way stepped{0, 0, 0}, linear{1, 0, 0};
/* The short way round the circle of these values. */
constexpr way turning(std::int32_t least, std::int32_t most) { return {2, least, most}; }

/* What a call gave that tells no more than its code. */
template <class T> result<T> by_code(std::int32_t code, T value) {
    if (code < 0) return refusal{code, 0, 0};
    return value;
}
inline result<void> by_code(std::int32_t code) {
    if (code < 0) return refusal{code, 0, 0};
    return {};
}

/* The last values that came of each field of each slot, and between two of them a value for each moment. */
class timeline {
public:
    /* `ways` has shape.fields rows for each kind. */
    static result<timeline> make(const tribes::shape &shape, span<const way> ways) {
        timeline made;
        std::int32_t code = tribes_timeline_open(&made.handle_, &shape, ways.data(), ways.size());
        if (code < 0) return refusal{code, 0, 0};
        return result<timeline>(std::move(made));
    }
    timeline(const timeline &) = delete;
    timeline &operator=(const timeline &) = delete;
    timeline(timeline &&other) noexcept : handle_(other.handle_) { other.handle_ = {}; }
    timeline &operator=(timeline &&other) noexcept {
        std::swap(handle_, other.handle_);
        return *this;
    }
    ~timeline() { tribes_timeline_free(&handle_); }

    /* Takes over what the packet that the client took last did to slots: once after each datagram that was taken. */
    result<void> take(client &from) { return by_code(tribes_timeline_take(&handle_, from.handle())); }
    result<void> began(std::uint32_t slot, std::uint32_t packet, std::uint32_t kind) { return by_code(tribes_timeline_began(&handle_, slot, packet, kind)); }
    result<void> came(std::uint32_t slot, std::uint32_t packet, std::uint32_t field, std::int32_t value) {
        return by_code(tribes_timeline_came(&handle_, slot, packet, field, value));
    }
    result<void> ended(std::uint32_t slot, std::uint32_t packet) { return by_code(tribes_timeline_ended(&handle_, slot, packet)); }

    /* The value of a field at a moment, and the kind of the copy that is drawn. */
    result<std::optional<std::int64_t>> value(std::uint32_t slot, std::uint32_t field, std::uint64_t at) {
        std::int64_t found = 0;
        std::int32_t code = tribes_timeline_value(&handle_, slot, field, at, &found);
        return by_code(code, code == 1 ? std::optional(found) : std::nullopt);
    }
    result<std::optional<std::uint32_t>> kind(std::uint32_t slot, std::uint64_t at) {
        std::uint32_t found = 0;
        std::int32_t code = tribes_timeline_kind(&handle_, slot, at, &found);
        return by_code(code, code == 1 ? std::optional(found) : std::nullopt);
    }

private:
    timeline() = default;
    tribes_timeline handle_{};
};

/* Which moment is drawn. */
class clock {
public:
    static result<clock> make(const tribes::pace &pace, std::uint64_t now) {
        clock made;
        std::int32_t code = tribes_clock_start(&made.kept_, &pace, now);
        return by_code(code, made);
    }
    result<void> came(std::uint32_t packet, std::uint64_t now) { return by_code(tribes_clock_came(&kept_, packet, now)); }
    result<std::uint64_t> moment(std::uint64_t now) {
        std::uint64_t at = 0;
        std::int32_t code = tribes_clock_moment(&kept_, now, &at);
        return by_code(code, at);
    }

private:
    clock() = default;
    tribes_clock kept_{};
};

/* What hides corrections of one field: at most so much either way. */
class offset {
public:
    explicit offset(std::uint32_t most) : kept_{most, 0} {}
    result<void> corrected(std::int32_t was, std::int32_t is) { return by_code(tribes_offset_corrected(&kept_, was, is)); }
    result<void> faded() { return by_code(tribes_offset_faded(&kept_)); }
    result<std::int64_t> value() const {
        std::int64_t left = 0;
        std::int32_t code = tribes_offset_value(&kept_, &left);
        return by_code(code, left);
    }

private:
    tribes_offset kept_;
};

/* ---- joining (docs/joining.md), and how a link goes (docs/pace.md) */

using greeting = tribes_greeting;
inline bytes bytes_of(const greeting &some) { return {some.bytes, some.count}; }

/* The number of what both ends must have alike. */
inline result<tribes_digest> protocol(const config &terms, const kinds &table, std::string_view word) {
    tribes_digest number{};
    tribes_reason why{};
    bytes letters = bytes_of(word);
    std::int32_t code = tribes_protocol(&terms, table.rows().data(), table.rows().size(), table.fields().data(), table.fields().size(), letters.data(),
                                        letters.size(), &number, &why);
    if (code < 0) return refusal{why.code, why.first, why.second};
    return number;
}

/* What a door heard: as tribes_door_hear answers, with its number and what is to go back. */
struct heard {
    std::int32_t answer = 0;
    std::uint32_t number = 0;
    greeting reply{};
};

/* Who joins: the server's side. */
class door {
public:
    static result<door> make(const tribes_terms &terms) {
        door made;
        if (std::int32_t code = tribes_door_open(&made.handle_, &terms); code < 0) return refusal{code, 0, 0};
        return result<door>(std::move(made));
    }
    door(const door &) = delete;
    door &operator=(const door &) = delete;
    door(door &&other) noexcept : handle_(other.handle_) { other.handle_ = {}; }
    door &operator=(door &&other) noexcept {
        std::swap(handle_, other.handle_);
        return *this;
    }
    ~door() { tribes_door_free(&handle_); }

    heard hear(const tribes_address &from, bytes came) {
        heard all;
        all.answer = tribes_door_hear(&handle_, &from, came.data(), came.size(), &all.reply, &all.number);
        return all;
    }
    result<greeting> accept(std::uint32_t client) {
        greeting reply{};
        std::int32_t code = tribes_door_accept(&handle_, client, &reply);
        return by_code(code, reply);
    }
    result<greeting> refuse() {
        greeting reply{};
        std::int32_t code = tribes_door_refuse(&handle_, &reply);
        return by_code(code, reply);
    }
    result<void> leave(std::uint32_t client) { return by_code(tribes_door_leave(&handle_, client)); }
    result<void> renew(const tribes_secret &secret) { return by_code(tribes_door_renew(&handle_, &secret)); }

private:
    door() = default;
    tribes_door handle_{};
};

/* How a link goes. A knock, a key, a presence, a meter and a rate need no class: tribes.h has their calls. */
class quality {
public:
    static result<quality> make() {
        quality made;
        if (std::int32_t code = tribes_quality_open(&made.handle_); code < 0) return refusal{code, 0, 0};
        return result<quality>(std::move(made));
    }
    quality(const quality &) = delete;
    quality &operator=(const quality &) = delete;
    quality(quality &&other) noexcept : handle_(other.handle_) { other.handle_ = {}; }
    quality &operator=(quality &&other) noexcept {
        std::swap(handle_, other.handle_);
        return *this;
    }
    ~quality() { tribes_quality_free(&handle_); }

    result<void> sent(std::uint64_t now) { return by_code(tribes_quality_sent(&handle_, now)); }
    result<void> judged(bool received, std::uint64_t now) { return by_code(tribes_quality_judged(&handle_, received, now)); }
    tribes_trip trip() {
        tribes_trip all{};
        tribes_quality_told(&handle_, &all);
        return all;
    }

private:
    quality() = default;
    tribes_quality handle_{};
};

/* Fields side by side as one number, the first in its lowest bits. */
inline result<std::uint64_t> put_bits(span<const std::uint32_t> widths, span<const std::uint64_t> values) {
    std::uint64_t bits = 0;
    std::int32_t code = tribes_put_bits(widths.data(), values.data(), widths.size(), &bits);
    if (code < 0) return refusal{code, 0, 0};
    return bits;
}

/* The fields of these widths in a number. */
template <std::size_t N> result<std::array<std::uint64_t, N>> take_bits(const std::array<std::uint32_t, N> &widths, std::uint64_t bits) {
    std::array<std::uint64_t, N> values{};
    std::int32_t code = tribes_take_bits(widths.data(), values.data(), N, bits);
    if (code < 0) return refusal{code, 0, 0};
    return values;
}

} // namespace tribes

#endif
