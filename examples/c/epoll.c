/* A server on all interfaces of this machine at once, by epoll, a timer and one socket: epoll STATION. The station is that of each interface, as on Xerox's
 * machines: ip link set dev eth1 address STATION. A packet's via is the interface that it came by, so each answer goes back there. Procedure 1 of program 7,
 * version 1, returns its words. It ends with 0 when it is told to, by SIGTERM. */
#define _GNU_SOURCE
#include "net.h"
#include <signal.h>
#include <sys/epoll.h>
#include <sys/signalfd.h>
#include <sys/timerfd.h>
#include <unistd.h>

static const struct xns_program PROGRAMS[] = { { 7, 1, 1 } };
static const struct xns_settings SETTINGS = { 0 }; /* each its default */
static struct xns_host host;

/* Sets the timer to the time at which the host wants to be asked; a time of 0 would stop it. */
static void set_timer(int timer, uint64_t wake) {
    struct itimerspec at;
    memset(&at, 0, sizeof at);
    if (wake != XNS_NEVER) {
        at.it_value.tv_sec = (time_t)(wake / 1000);
        at.it_value.tv_nsec = wake == 0 ? 1 : (long)(wake % 1000 * 1000000);
    }
    timerfd_settime(timer, TFD_TIMER_ABSTIME, &at, NULL);
}

/* A file that can be read once SIGTERM has come. */
static int stop_file(void) {
    sigset_t stops;
    sigemptyset(&stops);
    sigaddset(&stops, SIGTERM);
    sigprocmask(SIG_BLOCK, &stops, NULL);
    return signalfd(-1, &stops, SFD_NONBLOCK);
}

/* What epoll waits for: each file is told by its number. */
static int wait_for(const int *files, int count) {
    const int all = epoll_create1(0);
    for (int i = 0; i < count; i++) {
        struct epoll_event wanted = { .events = EPOLLIN, .data = { .fd = files[i] } };
        if (epoll_ctl(all, EPOLL_CTL_ADD, files[i], &wanted) != 0) {
            perror("epoll");
            exit(1);
        }
    }
    return all;
}

/* Returns the words of a call: what is refused memory is tried again. */
static void answer(uint64_t now, const struct xns_event *call, const uint16_t *words, size_t count) {
    enum xns_result told;
    do told = xns_host_answer(&host, now, call->number, XNS_KIND_RETURN, 0, words, count);
    while (told == XNS_NO_MEMORY);
}

static void turn(struct link *link) {
    static uint16_t words[XNS_MOST_MESSAGE_WORDS];
    const uint64_t now = link_receive_packets(link, &host);
    struct xns_event event;
    size_t length;
    while (xns_host_next_event(&host, &event, words, XNS_MOST_MESSAGE_WORDS, &length) == XNS_OK)
        if (event.kind == XNS_EVENT_CALL) answer(now, &event, words, length);
    link_send_packets(link, &host, now);
}

int main(int count, char **given) {
    struct xns_address here = { 1, { 0 }, XNS_SOCKET_COURIER };
    struct link link = { 0 };
    uint8_t secret[32];
    int files[3], all;
    bool is_stopped = false;
    if (count != 2 || !read_station(given[1], here.host)) return wrong_words("STATION");
    ethernet_open(&link, NULL);
    files[0] = link.file;
    files[1] = timerfd_create(CLOCK_MONOTONIC, TFD_NONBLOCK);
    files[2] = stop_file();
    all = wait_for(files, 3);
    random_bytes(secret, sizeof secret);
    check(xns_host_new(&host, &here, &SETTINGS, secret));
    check(xns_host_serve(&host, here.socket, PROGRAMS, 1));
    while (!is_stopped) {
        struct epoll_event ready[3];
        uint64_t times;
        int came;
        set_timer(files[1], xns_host_wake(&host));
        came = epoll_wait(all, ready, 3, -1);
        for (int i = 0; i < came; i++) is_stopped = is_stopped || ready[i].data.fd == files[2];
        (void)!read(files[1], &times, sizeof times);
        turn(&link);
    }
    xns_host_free(&host);
    return 0;
}
