/* Prints the fields of each packet that stands on standard input, as a line of hex. Ends with 1 where a line is no packet.
 *
 *     echo 532300220002000000010000aa0001020002000000010000aa000304040000014869 | ./fields
 */
#include "hex.h"
#include "xns.h"

static void print_address(const char *name, const struct xns_address *address) {
    printf("%s network %u host %02x%02x%02x%02x%02x%02x socket %u\n", name, address->network, address->host[0], address->host[1],
        address->host[2], address->host[3], address->host[4], address->host[5], address->socket);
}

/* What the data are, where the packet type says it. */
static void print_data(const struct xns_packet *packet, const uint8_t *data) {
    struct xns_header header;
    uint32_t id;
    uint16_t number, parameter, client;
    if (packet->kind == 3 && xns_error_read(data, packet->body_length, &number, &parameter) == XNS_OK) {
        printf("error number %u parameter %u\n", number, parameter);
    } else if (packet->kind == 4 && xns_exchange_read(data, packet->body_length, &id, &client) == XNS_OK) {
        printf("exchange id %u client %u\n", id, client);
    } else if (packet->kind == 5 && xns_header_read(data, packet->body_length, &header) == XNS_OK) {
        printf("sequenced control %u stream %u source %u target %u sequence %u acknowledge %u allocation %u\n", header.control, header.stream,
            header.source_id, header.target_id, header.sequence, header.acknowledge, header.allocation);
    }
    printf("data ");
    write_hex(stdout, data, packet->body_length);
}

int main(void) {
    static uint8_t bytes[4096];
    struct xns_packet packet;
    int length, status = 0;
    while ((length = read_hex(stdin, bytes, sizeof bytes)) != -1) {
        uint32_t result = length < 0 ? (uint32_t)XNS_BAD_ARGUMENT : xns_decode(bytes, (size_t)length, &packet);
        if (result != XNS_OK) {
            printf("refused %u\n", result);
            status = 1;
            continue;
        }
        printf("summed %u control %u type %u length %zu\n", packet.summed, packet.control, packet.kind, packet.taken);
        print_address("to", &packet.target);
        print_address("from", &packet.source);
        print_data(&packet, bytes + packet.body_at);
    }
    return status;
}
