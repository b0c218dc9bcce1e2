/* A live gateway: each datagram on a loopback port is one transport packet; each packet goes on as a datagram to another
 * port. Where the kernel says that its receive queue was full, the receiver is told of a gap.
 *
 *     udp TP_LENGTH STREAM PORT_IN PORT_OUT
 *
 * What goes wrong is told on standard error, a line for each notice and each gap. */
#define _GNU_SOURCE
#include <arpa/inet.h>
#include <stdio.h>
#include <stdlib.h>
#include <string.h>
#include <sys/socket.h>

#include "jenugathi.h"

static uint8_t tp[C7_TP_MOST + 1], room[C7_ROOM_MOST]; /* a byte more, so that a longer datagram is not taken for a TP */
static c7_receiver receiver;

static struct sockaddr_in loopback(const char *port)
{
    return (struct sockaddr_in){.sin_family = AF_INET,
                                .sin_port = htons((uint16_t)strtoul(port, NULL, 10)),
                                .sin_addr.s_addr = htonl(INADDR_LOOPBACK)};
}

/* A datagram, and in *lost how many the kernel has dropped since the socket was made, if it tells. */
static ssize_t datagram(int in, uint32_t *lost)
{
    char control[CMSG_SPACE(sizeof *lost)];
    struct iovec part = {tp, sizeof tp};
    struct msghdr message = {
        .msg_iov = &part, .msg_iovlen = 1, .msg_control = control, .msg_controllen = sizeof control};
    ssize_t length = recvmsg(in, &message, 0);

    for (struct cmsghdr *c = CMSG_FIRSTHDR(&message); length >= 0 && c != NULL; c = CMSG_NXTHDR(&message, c))
        if (c->cmsg_level == SOL_SOCKET && c->cmsg_type == SO_RXQ_OVFL)
            memcpy(lost, CMSG_DATA(c), sizeof *lost);
    return length;
}

/* Sends the packets of one transport packet on. */
static void pass_on(size_t length, int out)
{
    c7_find find;

    do {
        uint32_t number = c7_receiver_next(&receiver, tp, length, room, sizeof room, &find);
        const uint8_t *packet = c7_packet(&find, tp, room);

        if (packet != NULL && send(out, packet, find.length, 0) < 0)
            perror("udp: a packet is lost");
        if (number != C7_DONE)
            fprintf(stderr, "udp: notice %u: %s\n", number, c7_text(number));
    } while (c7_goes_on(&find));
}

int main(int count, char **words)
{
    uint32_t lost = 0, before = 0;
    ssize_t length;

    if (count != 5) {
        fprintf(stderr, "usage: udp TP_LENGTH STREAM PORT_IN PORT_OUT\n");
        return EXIT_FAILURE;
    }

    const struct sockaddr_in from = loopback(words[3]), to = loopback(words[4]);
    int in = socket(AF_INET, SOCK_DGRAM, 0), out = socket(AF_INET, SOCK_DGRAM, 0);

    if (bind(in, (const struct sockaddr *)&from, sizeof from) != 0 ||
        connect(out, (const struct sockaddr *)&to, sizeof to) != 0) {
        perror("udp");
        return EXIT_FAILURE;
    }
    if (setsockopt(in, SOL_SOCKET, SO_RXQ_OVFL, &(int){1}, sizeof(int)) != 0)
        perror("udp: losses will not be told");

    uint32_t number = c7_receiver_open(&receiver, strtoul(words[1], NULL, 10), (uint32_t)strtoul(words[2], NULL, 10),
                                       room, sizeof room);

    for (; number == C7_DONE && (length = datagram(in, &lost)) >= 0; before = lost) {
        if (lost != before && c7_receiver_gap(&receiver) == C7_DONE)
            fprintf(stderr, "udp: %u datagrams lost\n", lost - before);
        pass_on((size_t)length, out);
    }
    fprintf(stderr, "udp: %s\n", number == C7_DONE ? "cannot receive" : c7_text(number));
    return EXIT_FAILURE;
}
