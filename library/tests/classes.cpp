// The classes of enip.hpp: what each call returns and throws, what a view refers to, and who owns what. Prints
// `N passed, M failed`.
#include <cstdio>
#include <cstring>
#include <enip.hpp>

static int passed, failed;

static void is(const char *what, bool holds) {
    if (holds) {
        passed++;
    } else {
        failed++;
        std::printf("classes: %s\n", what);
    }
}

// Whether a call throws an Error with this status.
template <class Call>
static void throws(const char *what, int status, Call call) {
    try {
        call();
        is(what, false);
    } catch (const enip::Error &error) {
        is(what, error.status() == status && error.what() == enip::status_text(ENIP_OF_CALL, std::uint32_t(status)));
    }
}

template <class Object>
constexpr bool is_owner = std::is_nothrow_move_constructible_v<Object> && std::is_nothrow_move_assignable_v<Object>
    && !std::is_copy_constructible_v<Object> && !std::is_copy_assignable_v<Object>;

static_assert(is_owner<enip::Adapter> && is_owner<enip::Endings> && is_owner<enip::Client> && is_owner<enip::Once>);
static_assert(std::is_trivially_copyable_v<enip::bytes_view>);
static_assert(std::is_convertible_v<std::vector<std::uint8_t>, enip::bytes_view>);
static_assert(std::is_convertible_v<std::array<std::byte, 3>, enip::bytes_view>);
static_assert(std::is_convertible_v<std::string_view, enip::bytes_view>);
static_assert(std::is_convertible_v<enip::Writer, enip::bytes_view>);
static_assert(!std::is_convertible_v<std::vector<std::uint16_t>, enip::bytes_view>);
static_assert(!std::is_convertible_v<std::vector<bool>, enip::bytes_view>);
static_assert(!std::is_convertible_v<const char *, enip::bytes_view>);
static_assert(!std::is_convertible_v<int, enip::bytes_view>);
static constexpr std::uint8_t ROW[] = {1, 2, 3};
static_assert(enip::bytes_view(ROW).size() == 3 && enip::bytes_view(ROW)[1] == 2 && enip::bytes_view(ROW).at(2) == 3);
static_assert(enip::bytes_view(ROW).subview(1).size() == 2 && enip::bytes_view(ROW).subview(1, 1)[0] == 2);
static_assert(enip::bytes_view().empty() && enip::bytes_view(ROW).subview(3).empty());

static const char configuration[] = R"(
vendor = 4660
device_type = 43
product_code = 7
major = 2
minor = 5
serial = 1
name = "M"
address = [127, 0, 0, 1]
peers = 2
connections = 3
[counter]
limit = 100
[ledger]
originators = 2
life = 7
[[assembly]]
instance = 100
settable = true
members = [4]
[[object]]
class = 768
instance = 1
[[object.attribute]]
number = 1
type = "UINT"
settable = true
[[object.service]]
number = 50
size = 4
reply = 4
)";

static void views() {
    const std::string text = "abc";
    const std::vector<std::uint8_t> bytes = {'a', 'b', 'c'};
    const enip::bytes_view view = bytes;
    int sum = 0;
    for (std::uint8_t byte : view)
        sum += byte;
    is("a view: its bytes", sum == 'a' + 'b' + 'c' && view.size() == 3 && view.data() == bytes.data());
    is("a view: of a text", enip::bytes_view(text) == view && enip::bytes_view(std::string_view("abc")) == view);
    is("a view: of another text", enip::bytes_view(std::string_view("abd")) != view);
    is("a view: of a shorter one", enip::bytes_view(std::string_view("ab")) != view);
    is("a view: as text and as a copy", view.text() == "abc" && view.to_vector() == bytes);
    is("a view: its parts", view.subview(1).text() == "bc" && view.subview(1, 1).text() == "b"
        && view.subview(3).empty() && view.subview(0, 99).text() == "abc");
    for (std::size_t offset : {std::size_t{4}, enip::bytes_view::npos}) {
        try {
            (void)view.subview(offset);
            is("a view: no such part", false);
        } catch (const std::out_of_range &) {
            is("a view: no such part", true);
        }
    }
    try {
        (void)view.at(3);
        is("a view: no such byte", false);
    } catch (const std::out_of_range &) {
        is("a view: no such byte", true);
    }
}

static void values() {
    enip::Writer writer;
    writer.set_bool(true).set_sint(-1).set_int(-2).set_dint(-3).set_lint(-4).set_usint(1).set_uint(0x1234)
        .set_udint(0x12345678).set_ulint(0x123456789abcdef0).set_byte(0x81).set_word(0x8001).set_dword(0x80030201)
        .set_lword(0x8007060504030201).set_real(1.5f).set_lreal(-2.25).set_short_string("abc").set_string("")
        .set_bytes(ROW);
    const std::string_view wanted(
        "\1\xff\xfe\xff\xfd\xff\xff\xff\xfc\xff\xff\xff\xff\xff\xff\xff\1\x34\x12\x78\x56\x34\x12\xf0\xde\xbc\x9a\x78\x56"
        "\x34\x12\x81\1\x80\1\2\3\x80\1\2\3\4\5\6\7\x80\0\0\xc0\x3f\0\0\0\0\0\0\2\xc0\3" "abc" "\0\0\1\2\3", 67);
    is("values are written", enip::bytes_view(writer).text() == wanted);
    enip::Reader reader(writer);
    is("values are read", reader.get_bool() && reader.get_sint() == -1 && reader.get_int() == -2
        && reader.get_dint() == -3 && reader.get_lint() == -4 && reader.get_usint() == 1 && reader.get_uint() == 0x1234
        && reader.get_udint() == 0x12345678 && reader.get_ulint() == 0x123456789abcdef0 && reader.get_byte() == 0x81
        && reader.get_word() == 0x8001 && reader.get_dword() == 0x80030201 && reader.get_lword() == 0x8007060504030201
        && reader.get_real() == 1.5f && reader.get_lreal() == -2.25 && reader.get_short_string() == "abc"
        && reader.get_string().empty());
    throws("too few bytes", ENIP_ABSENT, [&] { (void)reader.get_dint(); });
    throws("too few bytes for a view", ENIP_ABSENT, [&] { (void)reader.get_bytes(4); });
    is("nothing was read", reader.left() == 3 && reader.rest() == ROW);
    is("bytes are read", reader.get_bytes(2) == enip::bytes_view(ROW).subview(0, 2) && reader.left() == 1);
    std::size_t before = writer.bytes().size();
    throws("a text that is too long", ENIP_MISUSE, [&] { writer.set_short_string(std::string(256, 'x')); });
    is("nothing was written", writer.bytes().size() == before);
    is("the longest text", writer.set_short_string(std::string(255, 'x')).bytes().size() == before + 256);
    is("a request", enip::bytes_view(enip::request(1, 256, 65536)).text()
        == std::string_view("\1\5\x21\0\0\1\x26\0\0\0\1\0", 12));
    is("a get", enip::bytes_view(enip::request_get(1, 1, 1)).text() == "\x0e\3\x20\1\x24\1\x30\1");
    is("a set", enip::bytes_view(enip::request_set(4, 100, 3).set_usint(9)).text() == "\x10\3\x20\4\x24\x64\x30\3\t");
    is("the widest", enip::bytes_view(enip::request(0x18, 0x1234, 0x56789abc, 0xdef0)).text()
        == std::string_view("\x18\7\x21\0\x34\x12\x26\0\xbc\x9a\x78\x56\x31\0\xf0\xde", 16));
    throws("a service with bit 7", ENIP_MISUSE, [] { enip::request(0x80, 1, 1); });
    enip::Writer path;
    path.path_class(1).path_instance(2).path_attribute(3).path_member(4);
    is("a path", enip::bytes_view(path).text() == "\x20\1\x24\2\x30\3\x28\4");
    enip::Reader refused(std::string_view("\x90\0\x0c\1\1\2\3", 7));
    is("a reply", refused.get_reply() == 0x0c && refused.left() == 1);
}

static void refusals() {
    try {
        enip::Adapter adapter("vendor = 1\ncolour = 2\n");
        is("a refusal", false);
    } catch (const enip::Refused &refused) {
        is("a refusal", refused.status() == ENIP_CONFIGURATION && refused.number() == ENIP_CONFIG_KEY);
        is("a refusal: its text", std::strstr(refused.what(), "line 2") != nullptr);
    }
    try {
        enip::Adapter adapter(configuration, std::string_view("nothing"), 1);
        is("a refused state", false);
    } catch (const enip::Refused &refused) {
        is("a refused state", refused.status() == ENIP_SAVED_STATE && refused.number() == ENIP_SAVED_NOT_A_STATE);
        is("a refused state: its text", refused.what()[0] != '\0');
    }
    throws("no configuration", ENIP_MISUSE, [] { enip::Adapter adapter{std::string_view()}; });
    throws("a connection of 3 bytes", ENIP_WANTS, [] {
        enip_wants wants = ENIP_WANTS_DEFAULT;
        wants.o_to_t_size = 3;
        enip::Client client(wants);
    });
    is("a text", enip::status_text(ENIP_OF_CALL, ENIP_PLACES).size() > 3 && enip::status_text(9, 9).empty());
}

// A device with a client at its other end.
struct Link {
    enip::Adapter device{configuration};
    enip::Client client;
    std::uint32_t peer = 0;
    int moves = 0;

    Link() : peer(device.begin().value()) { exchange(client.register_session()); }
    enip::Heard exchange(enip::bytes_view frame) {
        enip::Fed fed = device.serve(0, peer, frame, [this](const enip_asked &asked, enip_reply &reply) {
            moves++;
            enip::reply_with(reply, enip::data_of(asked));
        });
        is("all is taken, and answered", fed.taken == frame.size() && fed.no_reply == 0 && !fed.close);
        return client.feed(fed.answer);
    }
};

static void sessions() {
    Link link;
    enip::Heard heard = link.exchange(link.client.ask(enip::request_get(1, 1, 1)));
    is("a reply", heard.kind == ENIP_HEARD_REPLY && heard.general == 0 && heard.taken == 46 && heard.reply.size() == 6);
    enip::Reader reply(heard.reply);
    is("its value", reply.get_reply() == 0 && reply.get_uint() == 4660 && reply.left() == 0);
    heard = link.exchange(link.client.open());
    is("an open", heard.kind == ENIP_HEARD_OPENED);
    is("a place", link.device.places().connections == 2 && link.device.places().peers == 1);
    enip::bytes_view frame = link.client.submit(enip::request(50, 768, 1).set_dint(5));
    std::vector<std::uint8_t> first = frame.to_vector();
    (void)link.exchange(frame);
    is("an owner that is asked", link.moves == 1);
    is("a repeat, whose reply is not awaited", link.exchange(first).kind == ENIP_HEARD_NOTHING);
    is("the owner is asked once", link.moves == 1);
    throws("nothing is pending", ENIP_ABSENT, [&] { link.client.give_up(); });
    throws("nothing to send again", ENIP_ABSENT, [&] { (void)link.client.resend(); });
    (void)link.client.submit(enip::request(50, 768, 1).set_dint(6));
    is("the same frame again", link.client.resend() == link.client.resend().to_vector());
    throws("another", ENIP_WAITING, [&] { (void)link.client.submit(enip::request(50, 768, 1).set_dint(6)); });
    link.client.give_up();
    heard = link.exchange(link.client.submit(enip::request(50, 768, 1).set_dint(7)));
    reply = enip::Reader(heard.reply);
    is("its reply", heard.kind == ENIP_HEARD_ACCEPTED && reply.get_reply() == 0 && reply.get_dint() == 7);
    is("what was given up did not come", link.moves == 2);
    is("a close", link.exchange(link.client.close()).kind == ENIP_HEARD_CLOSED);
    is("the end", !link.client.unregister_session().empty());
    throws("after the end", ENIP_STATE, [&] { (void)link.client.open(); });
}

static void owners() {
    enip::Adapter device(configuration);
    std::uint32_t peer = device.begin().value();
    enip::Client client;
    (void)client.feed(device.feed(0, peer, client.register_session()).answer);
    enip::Writer move = enip::request(50, 768, 1);
    move.set_dint(5);
    // an exception passes through the call
    struct Stop {
        int number;
    };
    std::vector<std::uint8_t> frame = client.ask(move).to_vector();
    try {
        (void)device.serve(0, peer, frame, [](const enip_asked &, enip_reply &) { throw Stop{3}; });
        is("an owner that throws", false);
    } catch (const Stop &stop) {
        is("an owner that throws", stop.number == 3);
    }
    throws("an owner that returns 1", ENIP_STATE, [&] {
        (void)device.serve(0, peer, frame, [](const enip_asked &, enip_reply &) { return 1; });
    });
    throws("a reply that is too long", ENIP_MISUSE, [&] {
        (void)device.serve(0, peer, frame, [](const enip_asked &, enip_reply &reply) { reply.length = 5; });
    });
    throws("a reply that does not fit at all", ENIP_ROOM, [&] {
        (void)device.serve(0, peer, frame, [](const enip_asked &, enip_reply &reply) {
            enip::reply_with(reply, std::vector<std::uint8_t>(481));
        });
    });
    // the owner writes the device, but does not feed it
    enip_asked seen = {};
    auto owner = [&](const enip_asked &asked, enip_reply &reply) -> int {
        seen = asked;
        device.write(100, 0, enip::data_of(asked));
        throws("a feed within", ENIP_MISUSE, [&] { (void)device.feed(0, peer, frame); });
        is("no numbered command", !device.asked_command());
        reply.status = 0x0c;
        return 0;
    };
    enip::Fed fed = device.serve(0, peer, frame, owner);
    is("what is asked", seen.service == 50 && seen.class_code == 768 && seen.instance == 1 && seen.length == 4
        && seen.reply_limit == 4 && seen.has_attribute == 0);
    is("it was written", device.read(4, 100, 3).value() == std::vector<std::uint8_t>{5, 0, 0, 0});
    is("its status", client.feed(fed.answer).general == 0x0c);
    // without an owner
    is("nobody is asked", client.feed(device.feed(0, peer, client.ask(move)).answer).general == 0x10);
}

static void device_side() {
    enip::Adapter device(configuration);
    std::uint32_t first = device.begin().value(), second = device.begin_as(ENIP_MAY_READ).value();
    is("two peers", first != second && device.places().peers == 0);
    is("no slot is left", !device.begin() && !device.begin_as(ENIP_MAY_WRITE));
    is("nor for a group", !device.begin_as(ENIP_MAY_WRITE, std::array<std::uint8_t, 16>{1}));
    device.end(second);
    is("a group", device.begin_as(ENIP_MAY_WRITE, std::array<std::uint8_t, 16>{1}).has_value());
    throws("other rights", ENIP_MISUSE, [&] { (void)device.begin_as(2); });
    is("no connection is open", !device.deadline());
    device.tick(5);
    is("no attribute", !device.read(1, 1, 99) && device.read(1, 1, 1).value() == std::vector<std::uint8_t>{0x34, 0x12});
    throws("no assembly", ENIP_ABSENT, [&] { device.write(101, 0, ROW); });
    throws("no assembly to count", ENIP_ABSENT, [&] { (void)device.changes(101); });
    throws("no attribute to write", ENIP_ABSENT, [&] { device.write_attribute(768, 1, 2, 0, ROW); });
    throws("no attribute to count", ENIP_ABSENT, [&] { (void)device.attribute_changes(768, 1, 2); });
    device.write(100, 1, ROW);
    is("an assembly", device.read(4, 100, 3).value() == std::vector<std::uint8_t>{0, 1, 2, 3});
    device.write_attribute(768, 1, 1, 0, enip::Writer().set_uint(1000));
    is("an attribute", enip::Reader(*device.read(768, 1, 1)).get_uint() == 1000);
    is("counts", device.changes(100) == 0 && device.attribute_changes(768, 1, 1) == 0 && !device.resets());
    device.set_status(0x0102);
    device.set_state(3);
    is("the status and the state", enip::Reader(*device.read(1, 1, 5)).get_uint() == 0x0102
        && device.read(1, 1, 8).value() == std::vector<std::uint8_t>{3});
    std::vector<std::uint8_t> list(24);
    list[0] = 0x63;
    is("a datagram", device.discover(list).value()[0] == 0x63 && !device.discover(ROW) && !device.discover({}));
}

static void kept() {
    enip::Adapter device(configuration, {}, 11);
    is("the first generation", device.generation({}) == 1);
    std::vector<std::uint8_t> state = device.save(1);
    is("nothing has changed", device.generation(state) == 1);
    device.write(100, 0, enip::Writer().set_udint(9));
    is("something has changed", device.generation(state) == 2);
    enip::Adapter next(configuration, device.save(2), 12);
    is("it is kept", enip::Reader(*next.read(4, 100, 3)).get_udint() == 9);
    is("nothing is in doubt", !next.in_doubt(0));
    throws("nothing to settle", ENIP_ABSENT, [&] { next.settle({1, 1}, std::string_view("\xb2\0\0\0", 4)); });
    throws("not a state", ENIP_SAVED_STATE, [&] { (void)next.generation(ROW); });
}

static void moves() {
    enip::Adapter device(configuration);
    std::uint32_t peer = device.begin().value();
    enip::Client client;
    enip::bytes_view frame = client.register_session();
    enip::Client moved = std::move(client);
    enip::Fed fed = device.feed(0, peer, frame);
    enip::Adapter other = std::move(device);
    is("a view after a move", moved.feed(fed.answer).kind == ENIP_HEARD_REGISTERED);
    throws("an object that was moved", ENIP_MISUSE, [&] { (void)device.places(); });
    throws("a client that was moved", ENIP_MISUSE, [&] { client.give_up(); });
    device = enip::Adapter(configuration);
    is("another object in its place", device.places().peers == 2 && other.places().peers == 1);
    other = std::move(device);
    is("what it was is freed", other.places().peers == 2);
}

static void endings() {
    Link link;
    enip::Endings endings;
    (void)link.exchange(link.client.open());
    endings.update(link.device);
    is("nothing has ended", endings.list().empty() && !endings.at(0));
    is("a deadline", link.device.deadline() == std::optional<std::uint64_t>(32000000));
    link.device.tick(32000000);
    endings.update(link.device);
    std::vector<enip_ended> all = endings.list();
    is("a timeout", all.size() == 1 && all[0].why == ENIP_ENDED_TIMED_OUT && all[0].peer == link.peer);
    is("no other", !endings.at(1));
}

static void once() {
    Link link;
    enip::Once once(enip::OnceValues{7, 77, 0});
    is("nothing is pending", !once.resend() && !once.request());
    throws("nothing to give up", ENIP_ABSENT, [&] { once.abandon(); });
    enip::Writer add = enip::request(0x32, 100, 1);
    add.set_udint(5);
    std::vector<std::uint8_t> message = once.command(add).to_vector();
    is("a command is pending", once.request().value() == add.bytes() && once.resend().value() == message);
    throws("another command", ENIP_WAITING, [&] { (void)once.command(add); });
    is("its values", once.values().life == 7 && once.values().originator == 77 && once.values().last_number == 1);
    enip::Once again(once.values(), add);
    is("the same message", again.resend().value() == message);
    for (enip::Once *one : {&once, &again}) {
        enip::Heard heard = link.exchange(link.client.ask(message));
        enip::Outcome outcome = one->receive(heard.reply);
        enip::Reader reply(outcome.reply);
        is("it is done", outcome.kind == ENIP_ONCE_DONE && outcome.general == 0);
        is("once", reply.get_reply() == 0 && reply.get_udint() == 5);
    }
    is("nothing is pending any more", !once.resend() && link.device.read(100, 1, 1)
        && enip::Reader(*link.device.read(100, 1, 1)).get_udint() == 5);
    is("nothing to withdraw", !once.withdraw());
    message = once.command(add).to_vector();
    enip::Heard heard = link.exchange(link.client.ask(once.withdraw().value()));
    is("it was withdrawn", once.withdrawn(heard.reply).kind == ENIP_ONCE_WITHDRAWN && !once.request());
    heard = link.exchange(link.client.ask(message));
    enip::Once late(once.values(), add);
    is("and is not executed", late.receive(heard.reply).kind == ENIP_ONCE_WITHDRAWN && !late.request());
    (void)once.command(add);
    once.abandon();
    is("it was given up", !once.request() && once.values().last_number == 3);
    is("a reply that is not one", once.receive(ROW).kind == ENIP_ONCE_NOTHING);
    throws("no reply", ENIP_MISUSE, [&] { (void)once.receive({}); });
}

int main() {
    views();
    values();
    refusals();
    sessions();
    owners();
    device_side();
    kept();
    moves();
    endings();
    once();
    std::printf("%d passed, %d failed\n", passed, failed);
    return failed != 0;
}
