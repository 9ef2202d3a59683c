/* client.c with libpcap beside the other networks: pcap -p INTERFACE STATION SERVER NUMBER .. is linked with -lpcap. */
#define NET_PCAP
#define _DEFAULT_SOURCE
#include "client.c"
