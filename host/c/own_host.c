/* Prints the links' names over a session and a socket of its own, without neli_host.h. */
#include <errno.h>
#include <linux/rtnetlink.h>
#include <neli.h>
#include <stdio.h>
#include <sys/socket.h>

/* Sends what may go out, and hands in what has come from the kernel, whose port is 0. */
static void turn(int fd, struct neli_session *session) {
    static uint8_t room[1 << 20];
    const uint8_t *bytes;
    size_t length, taken;
    while (neli_session_outgoing(session, &bytes, &length) == NELI_ITEM) {
        ssize_t sent = send(fd, bytes, length, MSG_DONTWAIT);
        if (sent < 0 && errno == EAGAIN) break; /* it stays the next one */
        if (sent < 0) neli_session_not_sent(session, errno);
        else neli_session_sent(session);
    }
    struct sockaddr_nl from = {0};
    socklen_t size = sizeof from;
    ssize_t came = recvfrom(fd, room, sizeof room, MSG_DONTWAIT | MSG_TRUNC, (struct sockaddr *)&from, &size);
    if (came > (ssize_t)sizeof room) neli_session_fault(session, EMSGSIZE);
    else if (came >= 0 && from.nl_pid == 0) neli_session_receive(session, room, (size_t)came, 0, false, &taken);
    else if (came < 0 && errno == EAGAIN) neli_session_quiet(session);
    else if (came < 0 && errno != EINTR) neli_session_fault(session, errno);
}

int main(void) {
    struct sockaddr_nl address = {.nl_family = AF_NETLINK};
    socklen_t size = sizeof address;
    struct neli_session session = NELI_SESSION_CLOSED;
    struct ifinfomsg all = {0};
    struct neli_attribute name;
    struct neli_verdict verdict;
    struct neli_walk walk;
    struct neli_lent link;
    uint32_t links;
    int32_t code;
    int fd = socket(AF_NETLINK, SOCK_RAW, NETLINK_ROUTE);
    if (bind(fd, (struct sockaddr *)&address, size) || getsockname(fd, (struct sockaddr *)&address, &size)) return 1;
    if (neli_session_new(&session, NETLINK_ROUTE, address.nl_pid, false) != NELI_OK) return 1;
    if (neli_session_send(&session, RTM_GETLINK, NLM_F_DUMP, &all, sizeof all, &links) != NELI_OK) return 1;
    while ((code = neli_session_next(&session, NELI_READER_REQUEST, links, &link)) == NELI_ITEM || code == NELI_WAITS) {
        if (code == NELI_WAITS) {
            turn(fd, &session);
            continue;
        }
        if (link.message.type == RTM_NEWLINK && neli_attributes_of(&link.message, sizeof all, &walk) == NELI_OK &&
            neli_find_attribute(link.bytes, link.length, &walk, IFLA_IFNAME, &name) == NELI_ITEM)
            printf("%.*s\n", (int)name.payload_length, (const char *)link.bytes + name.payload);
        neli_session_pass(&session, NELI_READER_REQUEST, links);
    }
    code = neli_session_verdict(&session, links, &verdict);
    neli_session_free(&session);
    return code == NELI_OK ? 0 : 1;
}
