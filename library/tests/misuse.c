/* Each call with each wrong argument returns ENIP_MISUSE, and changes nothing. Prints `N passed, M failed`. */
#include <enip.h>
#include <stdio.h>
#include <string.h>

static int passed, failed;

static void is(const char *what, int got, int wanted) {
    if (got == wanted) {
        passed++;
    } else {
        failed++;
        printf("misuse: %s: %d instead of %d\n", what, got, wanted);
    }
}

#define MISUSE(call) is(#call, call, ENIP_MISUSE)

static const char configuration[] =
    "vendor = 4660\ndevice_type = 43\nproduct_code = 7\nmajor = 2\nminor = 5\nserial = 1\nname = \"M\"\n"
    "address = [127, 0, 0, 1]\n[counter]\nlimit = 100\n";

static const unsigned char registers[28] = {0x65, 0, 4, 0, [24] = 1};
static const unsigned char list_identity[24] = {0x63};

int main(void) {
    static unsigned char buffer[ENIP_REPLY_ROOM];
    static uint64_t foreign[16];
    static union {
        unsigned char bytes[ENIP_ANSWER_ROOM];
        enip_fed fed;
        size_t count;
        enip_outcome outcome;
        uint64_t life;
        uint32_t number;
    } shared;
    enip_adapter *adapter = NULL, *other = (enip_adapter *)foreign;
    enip_client *client = NULL, *stranger = (enip_client *)foreign;
    enip_wants wants = {1, 2, 1000000, 3, 4, 500, 500, 1, 3};
    enip_fed fed;
    enip_heard heard;
    uint32_t peer = 7;
    uint16_t peers = 9, connections = 9;
    uint64_t deadline = 5;
    size_t count = 77, size = sizeof configuration - 1, far = (size_t)PTRDIFF_MAX + 1;
    enip_once *once = NULL, *alien = (enip_once *)foreign;
    enip_outcome outcome = {77, 77, 77};
    uint64_t life = 5, originator = 6;
    uint32_t number = 7;

    MISUSE(enip_adapter_new(NULL, size, &adapter, NULL));
    MISUSE(enip_adapter_new(configuration, 0, &adapter, NULL));
    MISUSE(enip_adapter_new(configuration, far, &adapter, NULL));
    MISUSE(enip_adapter_new(configuration, size, NULL, NULL));
    is("nothing was made", adapter == NULL, 1);
    is("new", enip_adapter_new(configuration, size, &adapter, NULL), ENIP_OK);
    is("begin", enip_adapter_begin(adapter, &peer), ENIP_OK);
    MISUSE(enip_adapter_begin(NULL, &peer));
    MISUSE(enip_adapter_begin(other, &peer));
    MISUSE(enip_adapter_begin(adapter, NULL));
    MISUSE(enip_adapter_begin_as(NULL, ENIP_MAY_READ, NULL, &peer));
    MISUSE(enip_adapter_begin_as(other, ENIP_MAY_READ, NULL, &peer));
    MISUSE(enip_adapter_begin_as(adapter, ENIP_MAY_READ + 1, NULL, &peer));
    MISUSE(enip_adapter_begin_as(adapter, ENIP_MAY_WRITE - 1, NULL, &peer));
    MISUSE(enip_adapter_begin_as(adapter, ENIP_MAY_READ, NULL, NULL));
    uint32_t words[4] = {0}; // a group that the peer would be written into
    MISUSE(enip_adapter_begin_as(adapter, ENIP_MAY_READ, (const uint8_t *)words, &words[3]));
    MISUSE(enip_adapter_feed(NULL, 0, peer, registers, 28, buffer, sizeof buffer, &fed));
    MISUSE(enip_adapter_feed(other, 0, peer, registers, 28, buffer, sizeof buffer, &fed));
    MISUSE(enip_adapter_feed(adapter, 0, peer, NULL, 28, buffer, sizeof buffer, &fed));
    MISUSE(enip_adapter_feed(adapter, 0, peer, registers, 0, buffer, sizeof buffer, &fed));
    MISUSE(enip_adapter_feed(adapter, 0, peer, registers, far, buffer, sizeof buffer, &fed));
    MISUSE(enip_adapter_feed(adapter, 0, peer, registers, 28, NULL, sizeof buffer, &fed));
    MISUSE(enip_adapter_feed(adapter, 0, peer, registers, 28, buffer, 0, &fed));
    MISUSE(enip_adapter_feed(adapter, 0, peer, registers, 28, buffer, far, &fed));
    MISUSE(enip_adapter_feed(adapter, 0, peer, registers, 28, buffer, sizeof buffer, NULL));
    MISUSE(enip_adapter_feed(adapter, 0, peer, buffer, 28, buffer, sizeof buffer, &fed));
    MISUSE(enip_adapter_feed(adapter, 0, peer, registers, 28, shared.bytes, sizeof shared.bytes, &shared.fed));
    MISUSE(enip_adapter_feed(adapter, 0, peer, shared.bytes, 28, buffer, sizeof buffer, &shared.fed));
    is("small", enip_adapter_feed(adapter, 0, peer, registers, 28, buffer, ENIP_ANSWER_ROOM - 1, &fed), ENIP_ROOM);
    is("feed", enip_adapter_feed(adapter, 0, peer, registers, 28, buffer, ENIP_ANSWER_ROOM, &fed), ENIP_OK);
    is("the first piece that was taken, and a session", fed.answer == 28 && buffer[4] == 1 && buffer[8] == 0, 1);
    MISUSE(enip_adapter_tick(NULL, 0));
    MISUSE(enip_adapter_tick(other, 0));
    MISUSE(enip_adapter_deadline(NULL, &deadline));
    MISUSE(enip_adapter_deadline(adapter, NULL));
    is("no deadline", enip_adapter_deadline(adapter, &deadline), ENIP_ABSENT);
    MISUSE(enip_adapter_end(other, peer));
    MISUSE(enip_adapter_read(NULL, 1, 1, 1, buffer, sizeof buffer, &count));
    MISUSE(enip_adapter_read(adapter, 1, 1, 1, NULL, 2, &count));
    MISUSE(enip_adapter_read(adapter, 1, 1, 1, buffer, 0, &count));
    MISUSE(enip_adapter_read(adapter, 1, 1, 1, buffer, 2, NULL));
    MISUSE(enip_adapter_read(adapter, 1, 1, 1, shared.bytes, sizeof shared.bytes, &shared.count));
    is("small", enip_adapter_read(adapter, 1, 1, 1, buffer, 1, &count), ENIP_ROOM);
    is("absent", enip_adapter_read(adapter, 1, 1, 99, buffer, 2, &count), ENIP_ABSENT);
    MISUSE(enip_adapter_discover(NULL, list_identity, 24, buffer, sizeof buffer, &count));
    MISUSE(enip_adapter_discover(other, list_identity, 24, buffer, sizeof buffer, &count));
    MISUSE(enip_adapter_discover(adapter, NULL, 24, buffer, sizeof buffer, &count));
    MISUSE(enip_adapter_discover(adapter, NULL, 0, buffer, sizeof buffer, &count));
    MISUSE(enip_adapter_discover(adapter, list_identity, far, buffer, sizeof buffer, &count));
    MISUSE(enip_adapter_discover(adapter, list_identity, 24, NULL, sizeof buffer, &count));
    MISUSE(enip_adapter_discover(adapter, list_identity, 24, buffer, 0, &count));
    MISUSE(enip_adapter_discover(adapter, list_identity, 24, buffer, far, &count));
    MISUSE(enip_adapter_discover(adapter, list_identity, 24, buffer, sizeof buffer, NULL));
    MISUSE(enip_adapter_discover(adapter, buffer, 24, buffer, sizeof buffer, &count));
    MISUSE(enip_adapter_discover(adapter, list_identity, 24, shared.bytes, sizeof shared.bytes, &shared.count));
    MISUSE(enip_adapter_discover(adapter, shared.bytes, 24, buffer, sizeof buffer, &shared.count));
    is("small", enip_adapter_discover(adapter, list_identity, 24, buffer, 64, &count), ENIP_ROOM);
    is("absent", enip_adapter_discover(adapter, list_identity, 23, buffer, 65, &count), ENIP_ABSENT);
    is("absent", enip_adapter_discover(adapter, list_identity, 0, buffer, 65, &count), ENIP_ABSENT);
    is("count", count == 77 && deadline == 5, 1);
    is("discover", enip_adapter_discover(adapter, list_identity, 24, buffer, 65, &count), ENIP_OK);
    is("an identity", count == 65 && buffer[0] == 0x63 && buffer[2] == 41, 1);
    is("read", enip_adapter_read(adapter, 1, 1, 1, buffer, 2, &count), ENIP_OK);
    is("vendor", count == 2 && buffer[0] == 0x34 && buffer[1] == 0x12, 1);
    MISUSE(enip_adapter_places(NULL, &peers, &connections));
    MISUSE(enip_adapter_places(adapter, NULL, &connections));
    MISUSE(enip_adapter_places(adapter, &peers, NULL));
    MISUSE(enip_adapter_free(other));
    is("free NULL", enip_adapter_free(NULL), ENIP_OK);
    enip_adapter *volatile freed = adapter;
    is("free", enip_adapter_free(adapter), ENIP_OK);
    MISUSE(enip_adapter_tick(freed, 0));
    MISUSE(enip_adapter_free(freed));

    MISUSE(enip_client_new(NULL, &client));
    MISUSE(enip_client_new(&wants, NULL));
    wants.o_to_t_size = 3;
    is("too small", enip_client_new(&wants, &client), ENIP_WANTS);
    wants.o_to_t_size = 4003;
    is("too large", enip_client_new(&wants, &client), ENIP_WANTS);
    wants.o_to_t_size = 500;
    wants.t_to_o_size = 9;
    is("too small", enip_client_new(&wants, &client), ENIP_WANTS);
    wants.t_to_o_size = 500;
    is("new", enip_client_new(&wants, &client), ENIP_OK);
    MISUSE(enip_client_register(NULL, buffer, sizeof buffer, &count));
    MISUSE(enip_client_register(stranger, buffer, sizeof buffer, &count));
    MISUSE(enip_client_register(client, NULL, sizeof buffer, &count));
    MISUSE(enip_client_register(client, buffer, 0, &count));
    MISUSE(enip_client_register(client, buffer, sizeof buffer, NULL));
    is("small", enip_client_register(client, buffer, ENIP_FRAME_ROOM - 1, &count), ENIP_ROOM);
    is("too early", enip_client_open(client, buffer, sizeof buffer, &count), ENIP_STATE);
    is("too early", enip_client_ask(client, registers, 28, buffer, sizeof buffer, &count), ENIP_STATE);
    is("too early", enip_client_submit(client, registers, 28, buffer, sizeof buffer, &count), ENIP_STATE);
    is("no request is pending", enip_client_resend(client, buffer, sizeof buffer, &count), ENIP_ABSENT);
    is("no request is pending", enip_client_give_up(client), ENIP_ABSENT);
    is("register", enip_client_register(client, buffer, sizeof buffer, &count), ENIP_OK);
    is("once", enip_client_register(client, buffer, sizeof buffer, &count), ENIP_STATE);
    MISUSE(enip_client_ask(client, NULL, 2, buffer, sizeof buffer, &count));
    MISUSE(enip_client_submit(client, registers, 0, buffer, sizeof buffer, &count));
    MISUSE(enip_client_feed(stranger, registers, 28, buffer, sizeof buffer, &heard));
    MISUSE(enip_client_feed(client, registers, 28, buffer, sizeof buffer, NULL));
    is("small", enip_client_feed(client, registers, 28, buffer, ENIP_REPLY_ROOM - 1, &heard), ENIP_ROOM);
    MISUSE(enip_client_free(stranger));
    enip_client *volatile over = client;
    is("free", enip_client_free(client), ENIP_OK);
    MISUSE(enip_client_give_up(over));
    MISUSE(enip_client_free(over));

    MISUSE(enip_once_new(1, 2, 3, NULL));
    MISUSE(enip_once_resume(1, 2, 3, NULL, 2, &once));
    MISUSE(enip_once_resume(1, 2, 3, registers, 0, &once));
    MISUSE(enip_once_resume(1, 2, 3, registers, far, &once));
    MISUSE(enip_once_resume(1, 2, 3, registers, 2, NULL));
    is("nothing was made", once == NULL, 1);
    is("new", enip_once_new(1, 2, 3, &once), ENIP_OK);
    MISUSE(enip_once_command(NULL, registers, 28, buffer, sizeof buffer, &count));
    MISUSE(enip_once_command(alien, registers, 28, buffer, sizeof buffer, &count));
    MISUSE(enip_once_command(once, NULL, 28, buffer, sizeof buffer, &count));
    MISUSE(enip_once_command(once, registers, 0, buffer, sizeof buffer, &count));
    MISUSE(enip_once_command(once, registers, far, buffer, sizeof buffer, &count));
    MISUSE(enip_once_command(once, registers, 28, NULL, sizeof buffer, &count));
    MISUSE(enip_once_command(once, registers, 28, buffer, 0, &count));
    MISUSE(enip_once_command(once, registers, 28, buffer, far, &count));
    MISUSE(enip_once_command(once, registers, 28, buffer, sizeof buffer, NULL));
    MISUSE(enip_once_command(once, buffer, 28, buffer, sizeof buffer, &count));
    MISUSE(enip_once_command(once, registers, 28, shared.bytes, sizeof shared.bytes, &shared.count));
    MISUSE(enip_once_resend(NULL, buffer, sizeof buffer, &count));
    MISUSE(enip_once_resend(alien, buffer, sizeof buffer, &count));
    MISUSE(enip_once_resend(once, NULL, sizeof buffer, &count));
    MISUSE(enip_once_resend(once, buffer, 0, &count));
    MISUSE(enip_once_resend(once, buffer, sizeof buffer, NULL));
    MISUSE(enip_once_request(NULL, buffer, sizeof buffer, &count));
    MISUSE(enip_once_request(alien, buffer, sizeof buffer, &count));
    MISUSE(enip_once_request(once, NULL, sizeof buffer, &count));
    MISUSE(enip_once_request(once, buffer, sizeof buffer, NULL));
    MISUSE(enip_once_receive(NULL, registers, 28, buffer, sizeof buffer, &outcome));
    MISUSE(enip_once_receive(alien, registers, 28, buffer, sizeof buffer, &outcome));
    MISUSE(enip_once_receive(once, NULL, 28, buffer, sizeof buffer, &outcome));
    MISUSE(enip_once_receive(once, registers, 0, buffer, sizeof buffer, &outcome));
    MISUSE(enip_once_receive(once, registers, far, buffer, sizeof buffer, &outcome));
    MISUSE(enip_once_receive(once, registers, 28, NULL, sizeof buffer, &outcome));
    MISUSE(enip_once_receive(once, registers, 28, buffer, 0, &outcome));
    MISUSE(enip_once_receive(once, registers, 28, buffer, sizeof buffer, NULL));
    MISUSE(enip_once_receive(once, buffer, 28, buffer, sizeof buffer, &outcome));
    MISUSE(enip_once_receive(once, registers, 28, shared.bytes, sizeof shared.bytes, &shared.outcome));
    MISUSE(enip_once_withdraw(NULL, buffer, sizeof buffer, &count));
    MISUSE(enip_once_withdraw(alien, buffer, sizeof buffer, &count));
    MISUSE(enip_once_withdraw(once, NULL, sizeof buffer, &count));
    MISUSE(enip_once_withdraw(once, buffer, sizeof buffer, NULL));
    MISUSE(enip_once_withdrawn(NULL, registers, 28, buffer, sizeof buffer, &outcome));
    MISUSE(enip_once_withdrawn(alien, registers, 28, buffer, sizeof buffer, &outcome));
    MISUSE(enip_once_withdrawn(once, NULL, 28, buffer, sizeof buffer, &outcome));
    MISUSE(enip_once_withdrawn(once, registers, 0, buffer, sizeof buffer, &outcome));
    MISUSE(enip_once_withdrawn(once, registers, far, buffer, sizeof buffer, &outcome));
    MISUSE(enip_once_withdrawn(once, registers, 28, NULL, sizeof buffer, &outcome));
    MISUSE(enip_once_withdrawn(once, registers, 28, buffer, 0, &outcome));
    MISUSE(enip_once_withdrawn(once, registers, 28, buffer, sizeof buffer, NULL));
    MISUSE(enip_once_withdrawn(once, buffer, 28, buffer, sizeof buffer, &outcome));
    MISUSE(enip_once_withdrawn(once, registers, 28, shared.bytes, sizeof shared.bytes, &shared.outcome));
    MISUSE(enip_once_abandon(NULL));
    MISUSE(enip_once_abandon(alien));
    MISUSE(enip_once_values(NULL, &life, &originator, &number));
    MISUSE(enip_once_values(alien, &life, &originator, &number));
    MISUSE(enip_once_values(once, NULL, &originator, &number));
    MISUSE(enip_once_values(once, &life, NULL, &number));
    MISUSE(enip_once_values(once, &life, &originator, NULL));
    MISUSE(enip_once_values(once, &life, &life, &number));
    MISUSE(enip_once_values(once, &shared.life, &originator, &shared.number));
    MISUSE(enip_once_values(once, &life, &shared.life, &shared.number));
    is("nothing has changed", life == 5 && originator == 6 && number == 7 && outcome.kind == 77, 1);
    is("values", enip_once_values(once, &life, &originator, &number), ENIP_OK);
    is("values", life == 1 && originator == 2 && number == 3, 1);
    is("nothing is pending", enip_once_resend(once, buffer, sizeof buffer, &count), ENIP_ABSENT);
    is("nothing to withdraw", enip_once_withdraw(once, buffer, sizeof buffer, &count), ENIP_ABSENT);
    MISUSE(enip_once_free(alien));
    is("free NULL", enip_once_free(NULL), ENIP_OK);
    enip_once *volatile gone = once;
    is("free", enip_once_free(once), ENIP_OK);
    MISUSE(enip_once_abandon(gone));
    MISUSE(enip_once_free(gone));
    is("version", strcmp(enip_version(), ENIP_VERSION), 0);
    printf("%d passed, %d failed\n", passed, failed);
    return failed != 0;
}
