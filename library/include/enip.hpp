// enip.hpp: C++17 classes over enip.h and enip_types.h. They own the objects of the library and the buffers that its
// calls write to. An object can be moved, not copied. The comment of each call in enip.h says what it does.
//
// A call that fails throws an enip::Error with the status. What an ordinary program meets is not an error: if all slots
// are taken, or what is asked for does not exist, the result is an empty std::optional.
//
// A bytes_view that a call returns is a view of a buffer of its object. It is valid until the next call that writes to
// this buffer, also if the object is moved, and ends with the object.
//
// All functions are inline: link with -lenip, as in C.
#ifndef ENIP_HPP
#define ENIP_HPP

#include "enip.h"
#include "enip_types.h"

#include <algorithm>
#include <array>
#include <cstddef>
#include <cstdint>
#include <exception>
#include <memory>
#include <optional>
#include <stdexcept>
#include <string>
#include <string_view>
#include <type_traits>
#include <utility>
#include <vector>

namespace enip {

namespace detail {

template <class Byte>
constexpr bool is_byte =
    sizeof(Byte) == 1 && (std::is_integral_v<Byte> || std::is_same_v<std::remove_cv_t<Byte>, std::byte>);

} // namespace detail

// ---- bytes ----

// Bytes that something else owns, as std::span<const std::uint8_t> of C++20 is.
class bytes_view {
public:
    using value_type = std::uint8_t;
    using size_type = std::size_t;
    using const_iterator = const std::uint8_t *;
    using iterator = const_iterator;
    static constexpr size_type npos = static_cast<size_type>(-1);

    constexpr bytes_view() noexcept = default;
    constexpr bytes_view(const std::uint8_t *data, size_type size) noexcept : data_(data), size_(size) {}
    bytes_view(const void *data, size_type size) noexcept : bytes_view(static_cast<const std::uint8_t *>(data), size) {}
    template <std::size_t N>
    constexpr bytes_view(const std::uint8_t (&array)[N]) noexcept : data_(array), size_(N) {}
    // Of a std::vector, std::array, std::string, std::string_view or another container of bytes in a row.
    template <class Container, class = std::enable_if_t<detail::is_byte<
                                   std::remove_pointer_t<decltype(std::declval<const Container &>().data())>>>>
    bytes_view(const Container &container) noexcept
        : data_(reinterpret_cast<const std::uint8_t *>(container.data())), size_(container.size()) {}

    constexpr const std::uint8_t *data() const noexcept { return data_; }
    constexpr size_type size() const noexcept { return size_; }
    constexpr bool empty() const noexcept { return size_ == 0; }
    constexpr const_iterator begin() const noexcept { return data_; }
    constexpr const_iterator end() const noexcept { return data_ + size_; }
    // index is less than size().
    constexpr std::uint8_t operator[](size_type index) const noexcept { return data_[index]; }
    // Throws std::out_of_range if there is no such byte.
    constexpr std::uint8_t at(size_type index) const {
        return index < size_ ? data_[index] : throw std::out_of_range("enip::bytes_view::at");
    }
    // The bytes from offset on, at most count of them. Throws std::out_of_range if offset is greater than size().
    constexpr bytes_view subview(size_type offset, size_type count = npos) const {
        if (offset > size_)
            throw std::out_of_range("enip::bytes_view::subview");
        return bytes_view(data_ + offset, count < size_ - offset ? count : size_ - offset);
    }
    // The same bytes as text, and as a copy.
    std::string_view text() const noexcept { return {reinterpret_cast<const char *>(data_), size_}; }
    std::vector<std::uint8_t> to_vector() const { return {begin(), end()}; }

    friend bool operator==(bytes_view a, bytes_view b) noexcept {
        return std::equal(a.begin(), a.end(), b.begin(), b.end());
    }
    friend bool operator!=(bytes_view a, bytes_view b) noexcept { return !(a == b); }

private:
    const std::uint8_t *data_ = nullptr;
    size_type size_ = 0;
};

// ---- errors ----

// The text of a number; empty if it has none. kind is ENIP_OF_CALL or one of the following.
inline std::string status_text(int kind, std::uint32_t number) {
    char text[256];
    std::size_t length = enip_status_text(kind, number, text, sizeof text);
    return std::string(text, std::min(length, sizeof text - 1));
}

// A call of the library returned another status than ENIP_OK.
class Error : public std::runtime_error {
public:
    explicit Error(int status) : Error(status, status_text(ENIP_OF_CALL, static_cast<std::uint32_t>(status))) {}
    Error(int status, const std::string &text) : std::runtime_error(text), status_(status) {}
    int status() const noexcept { return status_; }

private:
    int status_;
};

// A configuration (ENIP_CONFIGURATION) or a saved state (ENIP_SAVED_STATE) is refused. what() says where and why.
class Refused : public Error {
public:
    Refused(int status, const enip_refusal &why) : Error(status, why.text), number_(why.number) {}
    // The check that failed: ENIP_CONFIG_NAME, ENIP_SAVED_NOT_A_STATE or one of the following.
    std::uint32_t number() const noexcept { return number_; }

private:
    std::uint32_t number_;
};

namespace detail {

inline void check(int status) {
    if (status != ENIP_OK)
        throw Error(status);
}

// Whether a call found what was asked for.
inline bool is_found(int status) {
    if (status == ENIP_ABSENT)
        return false;
    check(status);
    return true;
}

template <class Object, int (*Free)(Object *)>
struct Deleter {
    void operator()(Object *object) const noexcept { Free(object); }
};

template <class Object, int (*Free)(Object *)>
using Handle = std::unique_ptr<Object, Deleter<Object, Free>>;

// A function of C++ that the library calls as the owner of a device. What it throws does not pass through the library:
// it is kept, and thrown again once the call of the library has returned.
template <class Owner>
struct OwnerCall {
    Owner &owner;
    std::exception_ptr thrown;

    static int run(void *context, const enip_asked *asked, enip_reply *reply) noexcept {
        OwnerCall &call = *static_cast<OwnerCall *>(context);
        try {
            if constexpr (std::is_void_v<std::invoke_result_t<Owner &, const enip_asked &, enip_reply &>>) {
                call.owner(*asked, *reply);
                return 0;
            } else {
                return static_cast<int>(call.owner(*asked, *reply));
            }
        } catch (...) {
            call.thrown = std::current_exception();
            return 1;
        }
    }
};

} // namespace detail

// ---- values ----

// Reads values of the standard's types, one after the other. Throws Error(ENIP_ABSENT) if the bytes do not go on with
// such a value; then the next call reads at the same place.
class Reader {
public:
    explicit Reader(bytes_view bytes) noexcept : bytes_(bytes) {}

    bool get_bool() { return read(enip_get_bool) != 0; }
    std::int8_t get_sint() { return read(enip_get_sint); }
    std::int16_t get_int() { return read(enip_get_int); }
    std::int32_t get_dint() { return read(enip_get_dint); }
    std::int64_t get_lint() { return read(enip_get_lint); }
    std::uint8_t get_usint() { return read(enip_get_usint); }
    std::uint16_t get_uint() { return read(enip_get_uint); }
    std::uint32_t get_udint() { return read(enip_get_udint); }
    std::uint64_t get_ulint() { return read(enip_get_ulint); }
    std::uint8_t get_byte() { return read(enip_get_byte); }
    std::uint16_t get_word() { return read(enip_get_word); }
    std::uint32_t get_dword() { return read(enip_get_dword); }
    std::uint64_t get_lword() { return read(enip_get_lword); }
    float get_real() { return read(enip_get_real); }
    double get_lreal() { return read(enip_get_lreal); }
    // A view of the text within the bytes.
    std::string_view get_short_string() { return read_text(enip_get_short_string); }
    std::string_view get_string() { return read_text(enip_get_string); }
    bytes_view get_bytes(std::size_t count) {
        if (count > left())
            throw Error(ENIP_ABSENT);
        offset_ += count;
        return bytes_.subview(offset_ - count, count);
    }
    // Passes over the start of a reply, and returns its general status: 0 is success.
    std::uint8_t get_reply() {
        std::uint8_t service = 0, general = 0;
        detail::check(enip_get_reply(bytes_.data(), bytes_.size(), &offset_, &service, &general));
        return general;
    }
    // The bytes that are left, and how many.
    bytes_view rest() const { return bytes_.subview(offset_); }
    std::size_t left() const noexcept { return bytes_.size() - offset_; }

private:
    template <class Value>
    Value read(int (*get)(const void *, std::size_t, std::size_t *, Value *)) {
        Value value{};
        detail::check(get(bytes_.data(), bytes_.size(), &offset_, &value));
        return value;
    }
    std::string_view read_text(int (*get)(const void *, std::size_t, std::size_t *, const char **, std::size_t *)) {
        const char *text = nullptr;
        std::size_t length = 0;
        detail::check(get(bytes_.data(), bytes_.size(), &offset_, &text, &length));
        return {text, length};
    }

    bytes_view bytes_;
    std::size_t offset_ = 0;
};

// Writes values of the standard's types, one after the other, and grows as it needs. A text that is too long for its
// type throws Error(ENIP_MISUSE).
class Writer {
public:
    Writer() = default;

    Writer &set_bool(bool value) { return write(enip_set_bool, int{value}); }
    Writer &set_sint(std::int8_t value) { return write(enip_set_sint, value); }
    Writer &set_int(std::int16_t value) { return write(enip_set_int, value); }
    Writer &set_dint(std::int32_t value) { return write(enip_set_dint, value); }
    Writer &set_lint(std::int64_t value) { return write(enip_set_lint, value); }
    Writer &set_usint(std::uint8_t value) { return write(enip_set_usint, value); }
    Writer &set_uint(std::uint16_t value) { return write(enip_set_uint, value); }
    Writer &set_udint(std::uint32_t value) { return write(enip_set_udint, value); }
    Writer &set_ulint(std::uint64_t value) { return write(enip_set_ulint, value); }
    Writer &set_byte(std::uint8_t value) { return write(enip_set_byte, value); }
    Writer &set_word(std::uint16_t value) { return write(enip_set_word, value); }
    Writer &set_dword(std::uint32_t value) { return write(enip_set_dword, value); }
    Writer &set_lword(std::uint64_t value) { return write(enip_set_lword, value); }
    Writer &set_real(float value) { return write(enip_set_real, value); }
    Writer &set_lreal(double value) { return write(enip_set_lreal, value); }
    Writer &set_short_string(std::string_view text) {
        return write(text.size() + 1, enip_set_short_string, text.data(), text.size());
    }
    Writer &set_string(std::string_view text) {
        return write(text.size() + 2, enip_set_string, text.data(), text.size());
    }
    Writer &set_bytes(bytes_view bytes) {
        bytes_.insert(bytes_.end(), bytes.begin(), bytes.end());
        return *this;
    }
    // The start of a request (enip_request_service), and a path of its own.
    Writer &request(std::uint8_t service, std::uint16_t class_code, std::uint32_t instance) {
        return write(LONGEST_REQUEST, enip_request_service, service, class_code, instance);
    }
    Writer &request(std::uint8_t service, std::uint16_t class_code, std::uint32_t instance, std::uint16_t attribute) {
        return write(LONGEST_REQUEST, enip_request_attribute, service, class_code, instance, attribute);
    }
    Writer &path_class(std::uint16_t class_code) { return write(enip_path_class, class_code); }
    Writer &path_instance(std::uint32_t instance) { return write(enip_path_instance, instance); }
    Writer &path_attribute(std::uint16_t attribute) { return write(enip_path_attribute, attribute); }
    Writer &path_member(std::uint16_t member) { return write(enip_path_member, member); }

    const std::vector<std::uint8_t> &bytes() const noexcept { return bytes_; }
    operator bytes_view() const noexcept { return bytes_; }

private:
    // The service, the size of the path, and the widest class, instance and attribute.
    static constexpr std::size_t LONGEST_REQUEST = 16;

    // Writes what a call writes, at most count bytes.
    template <class... Parameters, class... Values>
    Writer &write(std::size_t count, int (*set)(void *, std::size_t, std::size_t *, Parameters...), Values... values) {
        std::size_t length = bytes_.size();
        bytes_.resize(length + count);
        int status = set(bytes_.data(), bytes_.size(), &length, values...);
        bytes_.resize(status == ENIP_OK ? length : bytes_.size() - count);
        detail::check(status);
        return *this;
    }
    template <class Value>
    Writer &write(int (*set)(void *, std::size_t, std::size_t *, Value), Value value) {
        return write(8, set, value);
    }

    std::vector<std::uint8_t> bytes_;
};

// A request to an object, and one that names an attribute. Its data follow: enip::request(50, 100, 1).set_udint(5).
inline Writer request(std::uint8_t service, std::uint16_t class_code, std::uint32_t instance) {
    Writer made;
    made.request(service, class_code, instance);
    return made;
}
inline Writer request(std::uint8_t service, std::uint16_t class_code, std::uint32_t instance, std::uint16_t attribute) {
    Writer made;
    made.request(service, class_code, instance, attribute);
    return made;
}

// Get_Attribute_Single, and the start of Set_Attribute_Single, which the value follows.
inline Writer request_get(std::uint16_t class_code, std::uint32_t instance, std::uint16_t attribute) {
    return request(ENIP_GET_ATTRIBUTE_SINGLE, class_code, instance, attribute);
}
inline Writer request_set(std::uint16_t class_code, std::uint32_t instance, std::uint16_t attribute) {
    return request(ENIP_SET_ATTRIBUTE_SINGLE, class_code, instance, attribute);
}

// ---- the adapter ----

// The data of a request to the owner, and the owner's reply: up to asked.reply_limit bytes.
inline bytes_view data_of(const enip_asked &asked) noexcept {
    return bytes_view(asked.data, asked.length);
}
inline void reply_with(enip_reply &reply, bytes_view data) {
    if (data.size() > sizeof reply.data)
        throw Error(ENIP_ROOM);
    std::copy(data.begin(), data.end(), reply.data);
    reply.length = data.size();
}

// The result of Adapter::feed and serve.
struct Fed {
    std::size_t taken;      // the number of bytes taken from the front of the piece
    bytes_view answer;      // send it to the peer; empty if there is no answer
    std::uint32_t no_reply; // 0 if there is an answer; otherwise ENIP_NO_REPLY_INCOMPLETE or one of the following
    bool close;             // send the answer, then close the peer's TCP connection
};

// A numbered command: its originator and its number.
struct Command {
    std::uint64_t originator;
    std::uint32_t number;
};

// How many slots for peers and for connections are free.
struct Places {
    std::uint16_t peers, connections;
};

// A device: enip_adapter.
class Adapter {
public:
    // From a configuration, which is TOML. Throws Refused if the configuration is refused.
    explicit Adapter(std::string_view configuration) {
        enip_refusal why = {};
        enip_adapter *made = nullptr;
        int status = enip_adapter_new(configuration.data(), configuration.size(), &made, &why);
        take(status, made, why);
    }
    // From a configuration and the last saved state, which is empty at the first start.
    Adapter(std::string_view configuration, bytes_view state, std::uint64_t life) {
        enip_refusal why = {};
        enip_adapter *made = nullptr;
        const std::uint8_t *bytes = state.empty() ? nullptr : state.data();
        int status = enip_adapter_new_kept(configuration.data(), configuration.size(), bytes, state.size(), life, &made,
                                           &why);
        take(status, made, why);
    }

    // Adds a peer, and returns its number; nothing if no slot, no handle or no share is left.
    std::optional<std::uint32_t> begin() {
        std::uint32_t peer = 0;
        int status = enip_adapter_begin(handle(), &peer);
        return peer_of(status, peer);
    }
    std::optional<std::uint32_t> begin_as(int rights) {
        std::uint32_t peer = 0;
        int status = enip_adapter_begin_as(handle(), rights, nullptr, &peer);
        return peer_of(status, peer);
    }
    std::optional<std::uint32_t> begin_as(int rights, const std::array<std::uint8_t, 16> &group) {
        std::uint32_t peer = 0;
        int status = enip_adapter_begin_as(handle(), rights, group.data(), &peer);
        return peer_of(status, peer);
    }
    void end(std::uint32_t peer) { detail::check(enip_adapter_end(handle(), peer)); }

    // Feeds a piece of a peer's stream, 1 byte or more.
    [[nodiscard]] Fed feed(std::uint64_t now, std::uint32_t peer, bytes_view piece) {
        enip_fed fed = {};
        detail::check(enip_adapter_feed(handle(), now, peer, piece.data(), piece.size(), answer_.data(), answer_.size(),
                                        &fed));
        return fed_of(fed);
    }
    // The same with the owner of the device: a function of a const enip_asked & and an enip_reply &. It returns
    // nothing, or 0 if it has replied: with another value, this throws Error(ENIP_STATE). It may throw, too: this call
    // throws the same again. In both cases no byte is taken: end the peer.
    template <class Owner>
    [[nodiscard]] Fed serve(std::uint64_t now, std::uint32_t peer, bytes_view piece, Owner &&owner) {
        using Call = detail::OwnerCall<std::remove_reference_t<Owner>>;
        Call call{owner, nullptr};
        enip_fed fed = {};
        int status = enip_adapter_serve(handle(), now, peer, piece.data(), piece.size(), answer_.data(), answer_.size(),
                                        Call::run, &call, &fed);
        if (call.thrown)
            std::rethrow_exception(call.thrown);
        detail::check(status);
        return fed_of(fed);
    }

    void tick(std::uint64_t now) { detail::check(enip_adapter_tick(handle(), now)); }
    std::optional<std::uint64_t> deadline() const {
        std::uint64_t deadline = 0;
        if (!detail::is_found(enip_adapter_deadline(handle(), &deadline)))
            return std::nullopt;
        return deadline;
    }

    // The answer to a datagram, which may be empty; nothing if it has none.
    std::optional<std::vector<std::uint8_t>> discover(bytes_view datagram) const {
        std::vector<std::uint8_t> answer(ENIP_ANSWER_ROOM);
        std::size_t count = 0;
        // an empty datagram has an address, too
        const std::uint8_t *bytes = datagram.empty() ? answer_.data() : datagram.data();
        if (!detail::is_found(enip_adapter_discover(handle(), bytes, datagram.size(), answer.data(), answer.size(),
                                                    &count)))
            return std::nullopt;
        answer.resize(count);
        return answer;
    }
    // The bytes of an attribute; nothing if there is no such attribute.
    std::optional<std::vector<std::uint8_t>> read(std::uint16_t class_code, std::uint32_t instance,
                                                  std::uint16_t attribute) const {
        std::vector<std::uint8_t> value(LONGEST_ATTRIBUTE);
        std::size_t count = 0;
        if (!detail::is_found(enip_adapter_read(handle(), class_code, instance, attribute, value.data(), value.size(),
                                                &count)))
            return std::nullopt;
        value.resize(count);
        return value;
    }
    void write(std::uint32_t instance, std::size_t offset, bytes_view bytes) {
        detail::check(enip_adapter_write(handle(), instance, offset, bytes.data(), bytes.size()));
    }
    void write_attribute(std::uint16_t class_code, std::uint32_t instance, std::uint16_t attribute, std::size_t offset,
                         bytes_view bytes) {
        detail::check(enip_adapter_write_attribute(handle(), class_code, instance, attribute, offset, bytes.data(),
                                                   bytes.size()));
    }

    // How often peers have written the data of an assembly, or an attribute. Throws Error(ENIP_ABSENT) if there is
    // none.
    std::uint32_t changes(std::uint32_t instance) const {
        std::uint32_t changes = 0;
        detail::check(enip_adapter_changes(handle(), instance, &changes));
        return changes;
    }
    std::uint32_t attribute_changes(std::uint16_t class_code, std::uint32_t instance, std::uint16_t attribute) const {
        std::uint32_t changes = 0;
        detail::check(enip_adapter_attribute_changes(handle(), class_code, instance, attribute, &changes));
        return changes;
    }
    // How often peers have reset the device; nothing if they may not.
    std::optional<std::uint32_t> resets() const {
        std::uint32_t resets = 0;
        if (!detail::is_found(enip_adapter_resets(handle(), &resets)))
            return std::nullopt;
        return resets;
    }
    Places places() const {
        Places places = {};
        detail::check(enip_adapter_places(handle(), &places.peers, &places.connections));
        return places;
    }
    void set_status(std::uint16_t status) { detail::check(enip_adapter_set_status(handle(), status)); }
    void set_state(std::uint8_t state) { detail::check(enip_adapter_set_state(handle(), state)); }

    // The generation of what is kept, given the last saved state, which is empty if nothing was saved yet.
    std::uint64_t generation(bytes_view state) const {
        std::uint64_t generation = 0;
        const std::uint8_t *bytes = state.empty() ? nullptr : state.data();
        detail::check(enip_adapter_generation(handle(), bytes, state.size(), &generation));
        return generation;
    }
    // The state with this generation.
    std::vector<std::uint8_t> save(std::uint64_t generation) const {
        std::vector<std::uint8_t> state(1024);
        std::size_t count = 0;
        int status = enip_adapter_save(handle(), generation, state.data(), state.size(), &count);
        if (status == ENIP_ROOM) {
            state.resize(count);
            status = enip_adapter_save(handle(), generation, state.data(), state.size(), &count);
        }
        detail::check(status);
        state.resize(count);
        return state;
    }
    // While the owner is called: the numbered command that it is asked to execute, if it is one.
    std::optional<Command> asked_command() const {
        Command command = {};
        if (!detail::is_found(enip_adapter_asked_command(handle(), &command.originator, &command.number)))
            return std::nullopt;
        return command;
    }
    // Command index, from 0 on, of those in doubt.
    std::optional<Command> in_doubt(std::size_t index) const {
        Command command = {};
        if (!detail::is_found(enip_adapter_in_doubt(handle(), index, &command.originator, &command.number)))
            return std::nullopt;
        return command;
    }
    // Gives a command in doubt its reply. Throws Error(ENIP_ABSENT) if it is not in doubt.
    void settle(const Command &command, bytes_view reply) {
        detail::check(enip_adapter_settle(handle(), command.originator, command.number, reply.data(), reply.size()));
    }

    // The handle, for calls of enip.h. It is freed with this object.
    enip_adapter *handle() const noexcept { return handle_.get(); }

private:
    static constexpr std::size_t LONGEST_ATTRIBUTE = 4000;

    void take(int status, enip_adapter *made, const enip_refusal &why) {
        if (status == ENIP_CONFIGURATION || status == ENIP_SAVED_STATE)
            throw Refused(status, why);
        detail::check(status);
        handle_.reset(made);
    }
    static std::optional<std::uint32_t> peer_of(int status, std::uint32_t peer) {
        if (status == ENIP_PLACES || status == ENIP_HANDLES || status == ENIP_SHARE)
            return std::nullopt;
        detail::check(status);
        return peer;
    }
    Fed fed_of(const enip_fed &fed) const {
        return {fed.taken, bytes_view(answer_.data(), fed.answer), fed.no_reply, fed.close != 0};
    }

    detail::Handle<enip_adapter, enip_adapter_free> handle_;
    std::vector<std::uint8_t> answer_ = std::vector<std::uint8_t>(ENIP_ANSWER_ROOM);
};

// The connections of an adapter that ended: enip_endings.
class Endings {
public:
    Endings() {
        enip_endings *made = nullptr;
        detail::check(enip_endings_new(&made));
        handle_.reset(made);
    }
    // Always pass the same adapter.
    void update(const Adapter &adapter) { detail::check(enip_endings_update(handle(), adapter.handle())); }
    std::optional<enip_ended> at(std::size_t index) const {
        enip_ended ended = {};
        if (!detail::is_found(enip_endings_at(handle(), index, &ended)))
            return std::nullopt;
        return ended;
    }
    // All that had ended at the last update.
    std::vector<enip_ended> list() const {
        std::vector<enip_ended> all;
        while (auto ended = at(all.size()))
            all.push_back(*ended);
        return all;
    }
    enip_endings *handle() const noexcept { return handle_.get(); }

private:
    detail::Handle<enip_endings, enip_endings_free> handle_;
};

// ---- the client ----

// The result of Client::feed.
struct Heard {
    std::size_t taken;      // the number of bytes taken from the front of the piece
    bytes_view reply;       // the reply, which begins with its service; Reader::get_reply passes over its start
    std::uint32_t kind;     // ENIP_HEARD_NOTHING or one of the following
    std::uint32_t general;  // the general status of the reply or of the refusal, otherwise 0
    std::uint32_t extended; // the first word of additional status, or 0
};

// A client: enip_client. Each call that returns a view writes one frame: send it.
class Client {
public:
    explicit Client(const enip_wants &wants = enip_wants ENIP_WANTS_DEFAULT) {
        enip_client *made = nullptr;
        detail::check(enip_client_new(&wants, &made));
        handle_.reset(made);
    }
    [[nodiscard]] bytes_view register_session() { return frame(enip_client_register); }
    [[nodiscard]] bytes_view open() { return frame(enip_client_open); }
    [[nodiscard]] bytes_view ask(bytes_view request) { return frame(enip_client_ask, request); }
    [[nodiscard]] bytes_view submit(bytes_view request) { return frame(enip_client_submit, request); }
    [[nodiscard]] bytes_view resend() { return frame(enip_client_resend); }
    [[nodiscard]] bytes_view close() { return frame(enip_client_close); }
    [[nodiscard]] bytes_view unregister_session() { return frame(enip_client_unregister); }
    void give_up() { detail::check(enip_client_give_up(handle())); }

    // Feeds a piece of what came back, 1 byte or more.
    [[nodiscard]] Heard feed(bytes_view piece) {
        enip_heard heard = {};
        detail::check(enip_client_feed(handle(), piece.data(), piece.size(), reply_.data(), reply_.size(), &heard));
        return {heard.taken, bytes_view(reply_.data(), heard.reply), heard.kind, heard.general, heard.extended};
    }
    enip_client *handle() const noexcept { return handle_.get(); }

private:
    bytes_view frame(int (*call)(enip_client *, void *, std::size_t, std::size_t *)) {
        std::size_t count = 0;
        detail::check(call(handle(), frame_.data(), frame_.size(), &count));
        return bytes_view(frame_.data(), count);
    }
    bytes_view frame(int (*call)(enip_client *, const void *, std::size_t, void *, std::size_t, std::size_t *),
                     bytes_view request) {
        std::size_t count = 0;
        detail::check(call(handle(), request.data(), request.size(), frame_.data(), frame_.size(), &count));
        return bytes_view(frame_.data(), count);
    }

    detail::Handle<enip_client, enip_client_free> handle_;
    std::vector<std::uint8_t> frame_ = std::vector<std::uint8_t>(ENIP_FRAME_ROOM);
    std::vector<std::uint8_t> reply_ = std::vector<std::uint8_t>(ENIP_REPLY_ROOM);
};

// ---- numbered commands ----

// The result of Once::receive and Once::withdrawn.
struct Outcome {
    bytes_view reply;      // ENIP_ONCE_DONE: the reply to the request
    std::uint32_t kind;    // ENIP_ONCE_NOTHING or one of the following
    std::uint32_t general; // the general status of that reply (DONE) or of the device's refusal, otherwise 0
};

// What a program stores of an originator: the device's life, the originator, the number of the last command.
struct OnceValues {
    std::uint64_t life, originator;
    std::uint32_t last_number;
};

// The originator's end of numbered commands: enip_once.
class Once {
public:
    explicit Once(const OnceValues &values) {
        enip_once *made = nullptr;
        detail::check(enip_once_new(values.life, values.originator, values.last_number, &made));
        handle_.reset(made);
    }
    // The same with the request of the command that is pending.
    Once(const OnceValues &values, bytes_view request) {
        enip_once *made = nullptr;
        detail::check(enip_once_resume(values.life, values.originator, values.last_number, request.data(),
                                       request.size(), &made));
        handle_.reset(made);
    }
    // Gives a command, and returns its message. Store values() and the request before you send it.
    [[nodiscard]] bytes_view command(bytes_view request) {
        std::size_t count = 0;
        detail::check(enip_once_command(handle(), request.data(), request.size(), message_.data(), message_.size(),
                                        &count));
        return bytes_view(message_.data(), count);
    }
    // The message of the pending command again; nothing if none is pending.
    [[nodiscard]] std::optional<bytes_view> resend() {
        std::size_t count = 0;
        if (!detail::is_found(enip_once_resend(handle(), message_.data(), message_.size(), &count)))
            return std::nullopt;
        return bytes_view(message_.data(), count);
    }
    // Takes the reply to the message.
    [[nodiscard]] Outcome receive(bytes_view reply) {
        enip_outcome outcome = {};
        reply_.resize(std::max(reply_.size(), reply.size()));
        detail::check(enip_once_receive(handle(), reply.data(), reply.size(), reply_.data(), reply_.size(), &outcome));
        return {bytes_view(reply_.data(), outcome.reply), outcome.kind, outcome.general};
    }
    // The message that withdraws the pending command; nothing if none is pending.
    [[nodiscard]] std::optional<bytes_view> withdraw() {
        std::size_t count = 0;
        if (!detail::is_found(enip_once_withdraw(handle(), message_.data(), message_.size(), &count)))
            return std::nullopt;
        return bytes_view(message_.data(), count);
    }
    // Takes the reply to that message.
    [[nodiscard]] Outcome withdrawn(bytes_view reply) {
        enip_outcome outcome = {};
        reply_.resize(std::max(reply_.size(), reply.size()));
        detail::check(
            enip_once_withdrawn(handle(), reply.data(), reply.size(), reply_.data(), reply_.size(), &outcome));
        return {bytes_view(reply_.data(), outcome.reply), outcome.kind, outcome.general};
    }
    // Gives the pending command up. Throws Error(ENIP_ABSENT) if none is pending.
    void abandon() { detail::check(enip_once_abandon(handle())); }
    OnceValues values() const {
        OnceValues values = {};
        detail::check(enip_once_values(handle(), &values.life, &values.originator, &values.last_number));
        return values;
    }
    // The request of the pending command; nothing if none is pending.
    std::optional<std::vector<std::uint8_t>> request() const {
        std::vector<std::uint8_t> request(ENIP_MESSAGE_ROOM);
        std::size_t count = 0;
        if (!detail::is_found(enip_once_request(handle(), request.data(), request.size(), &count)))
            return std::nullopt;
        request.resize(count);
        return request;
    }
    enip_once *handle() const noexcept { return handle_.get(); }

private:
    detail::Handle<enip_once, enip_once_free> handle_;
    std::vector<std::uint8_t> message_ = std::vector<std::uint8_t>(ENIP_MESSAGE_ROOM);
    std::vector<std::uint8_t> reply_ = std::vector<std::uint8_t>(ENIP_MESSAGE_ROOM);
};

} // namespace enip

#endif
