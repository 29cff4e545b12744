// The same work as `carry`, by ENet 1.3 over loopback: COUNT messages of so many octets, each sent reliably once the one before it has
// arrived and been acknowledged. Both ends are in this program. What is handed out is held against what was sent.
//     enet COUNT OCTETS [carry|bare]      `bare` makes the messages, and sends none
#include <enet/enet.h>
#include <stdio.h>
#include <stdlib.h>
#include <string.h>

static unsigned char sent[132];

// Each message differs from the one before.
static void make(unsigned long number, size_t octets)
{
    memset(sent, (int)(number & 255), octets);
    memcpy(sent, &number, octets < sizeof number ? octets : sizeof number);
}

// Serves one end until nothing is left to read; true if an event of this kind was among what came.
static int serve(ENetHost *end, ENetEventType kind, ENetPacket **packet)
{
    ENetEvent event;
    int met = 0;
    while (enet_host_service(end, &event, 0) > 0) {
        met |= event.type == kind;
        if (event.type == ENET_EVENT_TYPE_RECEIVE)
            *packet = event.packet;
    }
    return met;
}

// A message goes from A to B, and its acknowledgement back.
static int carry(ENetHost *a, ENetHost *b, ENetPeer *peer, size_t octets)
{
    ENetPacket *got = NULL, *none = NULL;
    if (enet_peer_send(peer, 0, enet_packet_create(sent, octets, ENET_PACKET_FLAG_RELIABLE)) < 0)
        return 0;
    enet_host_flush(a);
    int came = serve(b, ENET_EVENT_TYPE_RECEIVE, &got);
    // Once is enough, but where ENet's own ping, which is sent reliably too, falls among the messages.
    for (int i = 0; i < 100 && !(i > 0 && enet_list_empty(&peer->sentReliableCommands)); i++) {
        enet_host_flush(b);
        serve(a, ENET_EVENT_TYPE_NONE, &none);
        if (!enet_list_empty(&peer->sentReliableCommands))
            serve(b, ENET_EVENT_TYPE_NONE, &none);
    }
    came = came && got->dataLength == octets && memcmp(got->data, sent, octets) == 0;
    came = came && enet_list_empty(&peer->sentReliableCommands);
    if (got)
        enet_packet_destroy(got);
    return came;
}

int main(int argc, char **argv)
{
    if (argc < 3 || enet_initialize() != 0)
        return 2;
    unsigned long count = strtoul(argv[1], NULL, 10), carried = 0;
    size_t octets = strtoul(argv[2], NULL, 10);
    int bare = argc > 3 && strcmp(argv[3], "bare") == 0;
    ENetAddress address = {.port = 0};
    enet_address_set_host_ip(&address, "127.0.0.1");
    ENetHost *b = enet_host_create(&address, 1, 1, 0, 0);
    if (!b || enet_socket_get_address(b->socket, &address) != 0 || octets > sizeof sent)
        return 2;
    ENetHost *a = enet_host_create(NULL, 1, 1, 0, 0);
    ENetPeer *peer = a ? enet_host_connect(a, &address, 1, 0) : NULL;
    ENetPacket *none = NULL;
    int met = 0;
    for (int i = 0; peer && !met && i < 100; i++) {
        met = serve(a, ENET_EVENT_TYPE_CONNECT, &none);
        serve(b, ENET_EVENT_TYPE_CONNECT, &none);
    }
    for (unsigned long i = 0; met && i < count; i++) {
        make(i, octets);
        if (!bare)
            carried += carry(a, b, peer, octets);
    }
    printf("carried %lu of %lu messages of %zu octets, %lu octets, 0 calls refused\n", carried, count, octets, carried * octets);
    return !met;
}
