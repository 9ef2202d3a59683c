/* The network that a program's words name:
 *
 *     PORT                          UDP on this machine: a server's port is its own, a client's that of the server
 *     -i INTERFACE                  Ethernet, as the interface's station; a client's words go on with the server's station
 *     -n PORT STATION               the hub of emulators at a port, as this station; a client's words go on with the server's
 *     -p INTERFACE STATION          libpcap, as this station, where NET_PCAP is defined; a client's words go on with the server's
 */
#ifndef NET_H
#define NET_H

#include "ethernet.h"
#include "nethub.h"
#include "udp.h"
#ifdef NET_PCAP
#include "by_pcap.h"
#endif

/* What NETWORK is in the usage of a client. */
#ifdef NET_PCAP
#define NET_USAGE "NETWORK is PORT, -i INTERFACE SERVER, -n PORT STATION SERVER or -p INTERFACE STATION SERVER"
#else
#define NET_USAGE "NETWORK is PORT, -i INTERFACE SERVER or -n PORT STATION SERVER"
#endif

enum net_role { NET_SERVES, NET_ASKS };

static const uint8_t NET_SERVER[6] = { 0, 0, 0xaa, 0, 1, 2 }, NET_CLIENT[6] = { 0, 0, 0xaa, 0, 3, 4 }; /* over UDP, where hosts have no stations */

/* Says which words this program takes; its status where it was given others. */
static inline int wrong_words(const char *usage) {
    fprintf(stderr, "usage: %s %s\n", program_invocation_short_name, usage);
    return 2;
}

/* A station, as twelve digits of hex with or without colons; `all` is each. */
static inline bool read_station(const char *text, uint8_t station[6]) {
    if (text == NULL) return false;
    if (strcmp(text, "all") == 0) {
        memset(station, 255, 6);
        return true;
    }
    for (int i = 0; i < 6; i++) {
        unsigned byte;
        if (strspn(text, "0123456789ABCDEFabcdef") < 2 || sscanf(text, "%2x", &byte) != 1) return false;
        station[i] = (uint8_t)byte;
        text += 2;
        if (*text == ':' && i < 5) text++;
    }
    return *text == '\0';
}

/* A number in decimal, at most this one. */
static inline bool read_number(const char *text, unsigned long most, unsigned long *number) {
    char *end;
    if (text == NULL || *text < '0' || *text > '9') return false;
    *number = strtoul(text, &end, 10);
    return *end == '\0' && *number <= most;
}

static inline void net_over_udp(struct link *link, enum net_role role, uint32_t port, uint8_t server[6]) {
    udp_open(link, role == NET_SERVES ? port : 0);
    link->via = udp_here(port);
    memcpy(link->station, role == NET_SERVES ? NET_SERVER : NET_CLIENT, 6);
    memcpy(server, NET_SERVER, 6);
}

/* Opens the network that the words name, and tells a client the server's host. The words behind; null where they name none. */
static inline char **net_open(struct link *link, enum net_role role, char **words, uint8_t server[6]) {
    uint8_t station[6];
    unsigned long port;
    const char *kind = *words;
    if (kind == NULL) return NULL;
    if (kind[0] != '-') {
        if (!read_number(kind, UINT16_MAX, &port)) return NULL;
        net_over_udp(link, role, (uint32_t)port, server);
        return words + 1;
    }
    if (words[1] == NULL) return NULL;
    if (strcmp(kind, "-i") == 0) {
        ethernet_open(link, words[1]);
        words += 2;
    } else if (strcmp(kind, "-n") == 0 && read_number(words[1], UINT16_MAX, &port) && read_station(words[2], station)) {
        nethub_open(link, (uint16_t)port, station);
        words += 3;
#ifdef NET_PCAP
    } else if (strcmp(kind, "-p") == 0 && read_station(words[2], station)) {
        by_pcap_open(link, words[1], station);
        words += 3;
#endif
    } else {
        return NULL;
    }
    if (role == NET_SERVES) return words;
    return read_station(*words, server) ? words + 1 : NULL;
}

#endif
