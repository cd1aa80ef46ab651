// Gives packets of live_packets.py to a broker on the loopback, all clients in one process:
//
//   live_client PORT FILE WINDOW SECONDS
//
// At most WINDOW commands are under way: with 1 each waits for the answer to the one before, as the lines of a script do. It
// ends when all copies have come, and prints the seconds that took, from the first connect on, its own processor seconds, and
// how many copies there were. After SECONDS it is ended.
#define _GNU_SOURCE
#include <arpa/inet.h>
#include <fcntl.h>
#include <netinet/tcp.h>
#include <stdint.h>
#include <stdio.h>
#include <stdlib.h>
#include <string.h>
#include <sys/epoll.h>
#include <sys/mman.h>
#include <sys/resource.h>
#include <sys/stat.h>
#include <time.h>
#include <unistd.h>

enum { CONNECT = 1, CONNACK, PUBLISH, PUBACK, PUBREC, PUBREL, PUBCOMP, SUBACK = 9, PINGREQ = 12, PINGRESP, DISCONNECT };
// How much is read at a time.
enum { PIECE = 65536 };

struct bytes {
    uint8_t *all;
    size_t length, room;
};

struct client {
    int socket;
    int waits_to_send;
    struct bytes in, out;
};

// What stands before each packet: its client, whether an answer comes, and the packet's length.
struct __attribute__((packed)) head {
    uint32_t client;
    uint8_t is_answered;
    uint32_t length;
};

static struct client *clients;
static int poller;
static int port;
static long under_way, copies;

static void fail(const char *what) {
    perror(what);
    exit(1);
}

static void reserve(struct bytes *bytes, size_t more) {
    if (bytes->length + more <= bytes->room) {
        return;
    }
    bytes->room = 2 * (bytes->length + more);
    bytes->all = realloc(bytes->all, bytes->room);
    if (bytes->all == NULL) {
        fail("live_client");
    }
}

static void forget(struct bytes *bytes, size_t front) {
    memmove(bytes->all, bytes->all + front, bytes->length - front);
    bytes->length -= front;
}

static void watch(uint32_t number, int how, uint32_t for_what) {
    struct epoll_event event = {.events = for_what, .data.u32 = number};
    if (epoll_ctl(poller, how, clients[number].socket, &event) != 0) {
        fail("epoll_ctl");
    }
}

static void open_client(uint32_t number) {
    struct sockaddr_in broker = {
        .sin_family = AF_INET, .sin_port = htons(port), .sin_addr.s_addr = htonl(INADDR_LOOPBACK)};
    int yes = 1;
    int made = socket(AF_INET, SOCK_STREAM, 0);
    if (made < 0 || connect(made, (struct sockaddr *)&broker, sizeof broker) != 0) {
        fail("connect");
    }
    setsockopt(made, IPPROTO_TCP, TCP_NODELAY, &yes, sizeof yes);
    fcntl(made, F_SETFL, O_NONBLOCK);
    clients[number].socket = made;
    watch(number, EPOLL_CTL_ADD, EPOLLIN);
}

static void add(uint32_t number, const uint8_t *packet, size_t length) {
    struct bytes *out = &clients[number].out;
    reserve(out, length);
    memcpy(out->all + out->length, packet, length);
    out->length += length;
}

static void send_all(uint32_t number) {
    struct client *client = &clients[number];
    size_t sent = 0;
    while (sent < client->out.length) {
        ssize_t n = send(client->socket, client->out.all + sent, client->out.length - sent, MSG_NOSIGNAL);
        if (n < 0) {
            break;
        }
        sent += n;
    }
    forget(&client->out, sent);
    if (client->waits_to_send != (client->out.length > 0)) {
        client->waits_to_send = client->out.length > 0;
        watch(number, EPOLL_CTL_MOD, client->waits_to_send ? EPOLLIN | EPOLLOUT : EPOLLIN);
    }
}

static void answer(uint32_t number, uint8_t first, const uint8_t *id) {
    uint8_t packet[4] = {first, 2, id[0], id[1]};
    add(number, packet, sizeof packet);
}

static void take_copy(uint32_t number, uint8_t first, const uint8_t *body) {
    int qos = first >> 1 & 3;
    copies++;
    if (qos > 0) {
        answer(number, qos == 1 ? PUBACK << 4 : PUBREC << 4, body + 2 + (body[0] << 8 | body[1]));
    }
}

// A publish that the broker refuses is answered by a reason of 128 or more.
static void take(uint32_t number, uint8_t first, const uint8_t *body, size_t length) {
    int is_refused = length > 2 && body[2] >= 128;
    switch (first >> 4) {
    case CONNACK:
        if (body[1] != 0) {
            fprintf(stderr, "live_client: a connect is refused: %d\n", body[1]);
            exit(1);
        }
        under_way--;
        break;
    case PUBACK:
    case PUBCOMP:
    case SUBACK:
    case PINGRESP:
        under_way--;
        break;
    case PUBREC:
        if (is_refused) {
            under_way--;
        } else {
            answer(number, PUBREL << 4 | 2, body);
        }
        break;
    case PUBREL:
        answer(number, PUBCOMP << 4, body);
        break;
    case PUBLISH:
        take_copy(number, first, body);
        break;
    case DISCONNECT:
        fprintf(stderr, "live_client: the broker sends client %u away\n", number);
        exit(1);
    }
}

// The length of the first packet with its head, 0 if it isn't there in whole; where its body begins.
static size_t packet_length(const uint8_t *from, size_t length, size_t *body) {
    size_t left = 0;
    for (size_t at = 1; at < length && at < 5; at++) {
        left |= (size_t)(from[at] & 127) << 7 * (at - 1);
        if (from[at] < 128) {
            *body = at + 1;
            return length < at + 1 + left ? 0 : at + 1 + left;
        }
    }
    return 0;
}

static void receive(uint32_t number) {
    struct bytes *in = &clients[number].in;
    size_t at = 0, body, whole;
    ssize_t n;
    do {
        reserve(in, PIECE);
        n = recv(clients[number].socket, in->all + in->length, PIECE, 0);
        in->length += n > 0 ? n : 0;
    } while (n == PIECE);
    if (n == 0) {
        fprintf(stderr, "live_client: the broker closes client %u\n", number);
        exit(1);
    }
    while ((whole = packet_length(in->all + at, in->length - at, &body)) > 0) {
        take(number, in->all[at], in->all + at + body, whole - body);
        at += whole;
    }
    forget(in, at);
    send_all(number);
}

static void wait_for_packets(int milliseconds) {
    struct epoll_event events[256];
    int count = epoll_wait(poller, events, 256, milliseconds);
    for (int i = 0; i < count; i++) {
        uint32_t number = events[i].data.u32;
        if (events[i].events & EPOLLOUT) {
            send_all(number);
        }
        if (events[i].events & ~EPOLLOUT) {
            receive(number);
        }
    }
}

static void give(const uint8_t *all, size_t size, long window) {
    struct head head;
    long given = 0;
    int were_publishes = 0;
    for (size_t at = 0; at < size; at += sizeof head + head.length) {
        const uint8_t *packet = all + at + sizeof head;
        int is_publish = packet[0] >> 4 == PUBLISH;
        memcpy(&head, all + at, sizeof head);
        // Other clients' subscriptions stand before a publish is routed.
        while (under_way >= (is_publish == were_publishes ? window : 1)) {
            wait_for_packets(-1);
        }
        were_publishes = is_publish;
        if (packet[0] >> 4 == CONNECT) {
            open_client(head.client);
        }
        add(head.client, packet, head.length);
        send_all(head.client);
        under_way += head.is_answered;
        // Copies are taken on the way, so that none piles up at the broker.
        if (++given % 64 == 0) {
            wait_for_packets(0);
        }
    }
}

static const uint8_t *read_packets(const char *name, size_t *size) {
    struct stat about;
    int file = open(name, O_RDONLY);
    if (file < 0 || fstat(file, &about) != 0) {
        fail(name);
    }
    *size = about.st_size;
    const uint8_t *all = mmap(NULL, *size, PROT_READ, MAP_PRIVATE, file, 0);
    if (all == MAP_FAILED) {
        fail(name);
    }
    return all;
}

static void wait_for_answers(void) {
    while (under_way > 0) {
        wait_for_packets(-1);
    }
}

// What a broker sent to a client before comes before its answer. So behind a first round all publishes have been routed, and
// behind a second all copies have come.
static void ping_all(uint32_t count) {
    static const uint8_t ping[2] = {PINGREQ << 4, 0};
    for (uint32_t number = 0; number < count; number++) {
        add(number, ping, sizeof ping);
        send_all(number);
        under_way++;
    }
    wait_for_answers();
}

static uint32_t count_clients(const uint8_t *all, size_t size) {
    struct head head;
    uint32_t count = 0;
    for (size_t at = 0; at < size; at += sizeof head + head.length) {
        memcpy(&head, all + at, sizeof head);
        count = head.client >= count ? head.client + 1 : count;
    }
    return count;
}

static double seconds(void) {
    struct timespec now;
    clock_gettime(CLOCK_MONOTONIC, &now);
    return now.tv_sec + now.tv_nsec / 1e9;
}

static double processor_seconds(void) {
    struct rusage used;
    getrusage(RUSAGE_SELF, &used);
    return used.ru_utime.tv_sec + used.ru_stime.tv_sec + (used.ru_utime.tv_usec + used.ru_stime.tv_usec) / 1e6;
}

int main(int words_count, char **words) {
    if (words_count != 5) {
        fprintf(stderr, "usage: live_client PORT FILE WINDOW SECONDS\n");
        return 2;
    }
    size_t size;
    const uint8_t *all = read_packets(words[2], &size);
    uint32_t count = count_clients(all, size);
    port = atoi(words[1]);
    alarm(atoi(words[4]));
    clients = calloc(count, sizeof *clients);
    poller = epoll_create1(0);
    double began = seconds();
    give(all, size, atol(words[3]));
    wait_for_answers();
    ping_all(count);
    ping_all(count);
    printf("%.3f %.3f %ld\n", seconds() - began, processor_seconds(), copies);
    return 0;
}
