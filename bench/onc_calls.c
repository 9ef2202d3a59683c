/* The calls of udp_calls.c as ONC RPC by libtirpc. Procedure 1 adds a cardinal and returns the total, procedure 2 returns the bytes that it is given.
 *
 *     onc_calls serve udp|tcp PORT
 *     onc_calls ask udp|tcp PORT CALLS BYTES */
#define _GNU_SOURCE
#include <arpa/inet.h>
#include <rpc/rpc.h>
#include <stdio.h>
#include <stdlib.h>
#include <string.h>
#include <sys/socket.h>

enum { PROGRAM = 0x20000007, VERSION = 1, ADD = 1, BACK = 2, MOST = 131072, BACKLOG = 64 };

struct bytes {
    char *at;
    u_int length;
};

static u_int total;

static bool_t xdr_some(XDR *xdr, struct bytes *bytes) {
    return xdr_bytes(xdr, &bytes->at, &bytes->length, MOST);
}

static struct sockaddr_in place_of(const char *port) {
    struct sockaddr_in place;
    memset(&place, 0, sizeof place);
    place.sin_family = AF_INET;
    place.sin_port = htons((uint16_t)atoi(port));
    place.sin_addr.s_addr = htonl(INADDR_LOOPBACK);
    return place;
}

static void add(SVCXPRT *transport) {
    u_short number = 0;
    if (!svc_getargs(transport, (xdrproc_t)xdr_u_short, (caddr_t)&number)) {
        svcerr_decode(transport);
        return;
    }
    total += number;
    svc_sendreply(transport, (xdrproc_t)xdr_u_int, (caddr_t)&total);
}

static void give_back(SVCXPRT *transport) {
    struct bytes bytes = { NULL, 0 };
    if (!svc_getargs(transport, (xdrproc_t)xdr_some, (caddr_t)&bytes)) {
        svcerr_decode(transport);
        return;
    }
    svc_sendreply(transport, (xdrproc_t)xdr_some, (caddr_t)&bytes);
    svc_freeargs(transport, (xdrproc_t)xdr_some, (caddr_t)&bytes);
}

static void answer(struct svc_req *request, SVCXPRT *transport) {
    switch (request->rq_proc) {
    case ADD: add(transport); return;
    case BACK: give_back(transport); return;
    default: svcerr_noproc(transport);
    }
}

static int serve(bool_t is_tcp, const char *port) {
    const struct sockaddr_in here = place_of(port);
    const int file = socket(AF_INET, is_tcp ? SOCK_STREAM : SOCK_DGRAM, 0);
    SVCXPRT *transport;
    if (bind(file, (const struct sockaddr *)&here, sizeof here) != 0 || (is_tcp && listen(file, BACKLOG) != 0)) {
        perror("the socket");
        return 1;
    }
    transport = is_tcp ? svc_vc_create(file, 0, 0) : svc_dg_create(file, 0, 0);
    if (transport == NULL || !svc_register(transport, PROGRAM, VERSION, answer, 0)) return 1;
    svc_run();
    return 1;
}

/* Whether a call is answered as it should be. */
static bool_t is_right(CLIENT *client, struct bytes *sent) {
    const struct timeval wait = { 5, 0 };
    struct bytes back = { NULL, 0 };
    u_short one = 1;
    u_int told = 0;
    bool_t is_same;
    if (sent->length == 0) return clnt_call(client, ADD, (xdrproc_t)xdr_u_short, (caddr_t)&one, (xdrproc_t)xdr_u_int, (caddr_t)&told, wait) == RPC_SUCCESS;
    if (clnt_call(client, BACK, (xdrproc_t)xdr_some, (caddr_t)sent, (xdrproc_t)xdr_some, (caddr_t)&back, wait) != RPC_SUCCESS) return FALSE;
    is_same = back.length == sent->length && memcmp(back.at, sent->at, sent->length) == 0;
    clnt_freeres(client, (xdrproc_t)xdr_some, (caddr_t)&back);
    return is_same;
}

static int ask(bool_t is_tcp, const char *port, long calls, u_int length) {
    static char at[MOST];
    const struct timeval again = { 5, 0 };
    struct sockaddr_in there = place_of(port);
    struct bytes sent = { at, length };
    int file = RPC_ANYSOCK;
    long right = 0;
    CLIENT *client = is_tcp ? clnttcp_create(&there, PROGRAM, VERSION, &file, 0, 0) : clntudp_create(&there, PROGRAM, VERSION, again, &file);
    if (client == NULL) {
        clnt_pcreateerror("onc_calls");
        return 1;
    }
    for (u_int i = 0; i < length; i++) at[i] = (char)(i * 40503u + 1);
    for (long i = 0; i < calls; i++) right += is_right(client, &sent);
    clnt_destroy(client);
    printf("%ld calls\n", right);
    return 0;
}

int main(int count, char **given) {
    if (count == 4 && strcmp(given[1], "serve") == 0) return serve(strcmp(given[2], "tcp") == 0, given[3]);
    if (count == 6 && strcmp(given[1], "ask") == 0) return ask(strcmp(given[2], "tcp") == 0, given[3], atol(given[4]), (u_int)atol(given[5]));
    return 2;
}
