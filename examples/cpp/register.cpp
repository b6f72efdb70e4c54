// Makes a device in memory, and a client that talks to it: the client registers a session, calls a service of the
// device, which a lambda executes, and reads an attribute.
//
//     c++ -std=c++17 register.cpp -lenip -o register
#include <cstdio>
#include <enip.hpp>

static const char configuration[] = R"(
vendor = 1
device_type = 43
product_code = 1
major = 1
minor = 1
serial = 1
name = "Cpp"
address = [127, 0, 0, 1]
[counter]
limit = 1
[[object]]
class = 768
instance = 1
[[object.service]]
number = 50
size = 2
reply = 4
)";

// A device, one peer of it, and the client at the other end.
class Session {
public:
    Session() : device_(configuration), peer_(device_.begin().value()) {
        exchange(client_.register_session());
    }
    // Sends a request, and returns the data of its reply. Throws if the device refuses it.
    enip::Reader ask(enip::bytes_view request) {
        enip::Reader reply(exchange(client_.ask(request)).reply);
        if (std::uint8_t general = reply.get_reply(); general != 0)
            throw std::runtime_error(enip::status_text(ENIP_OF_GENERAL, general));
        return reply;
    }

private:
    // What a network does: it takes the frame to the device, and the answer back.
    enip::Heard exchange(enip::bytes_view frame) {
        auto doubles = [](const enip_asked &asked, enip_reply &reply) {
            std::uint16_t value = enip::Reader(enip::data_of(asked)).get_uint();
            enip::reply_with(reply, enip::Writer().set_udint(2u * value));
        };
        return client_.feed(device_.serve(0, peer_, frame, doubles).answer);
    }

    enip::Adapter device_;
    enip::Client client_;
    std::uint32_t peer_;
};

int main() {
    try {
        Session session;
        std::printf("service 50 of 21: %u\n", session.ask(enip::request(50, 768, 1).set_uint(21)).get_udint());
        enip::Reader name = session.ask(enip::request_get(1, 1, 7));
        std::printf("name: %s\n", std::string(name.get_short_string()).c_str());
    } catch (const enip::Refused &refused) {
        std::fprintf(stderr, "register: configuration %u: %s\n", refused.number(), refused.what());
        return 1;
    } catch (const std::exception &error) {
        std::fprintf(stderr, "register: %s\n", error.what());
        return 1;
    }
}
