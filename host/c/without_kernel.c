/* Tests a client without a kernel: the simulator answers what a router sent, and the verdict says that the list changed
 * meanwhile. Ends with 0 where it does. */
#include <linux/rtnetlink.h>
#include <neli.h>

/* Answers what a client sent from port 7: a dump of two links, during which the table changed. */
static void serve(struct neli_router *router, const uint8_t *sent, size_t length) {
    const struct ifinfomsg link = {.ifi_index = 1};
    struct neli_walk walk = {0, length};
    struct neli_request request;
    uint8_t out[8192];
    size_t size;
    while (neli_next_request(sent, length, &walk, 7, &request) == NELI_ITEM) {
        struct neli_kernel_dump dump = NELI_KERNEL_DUMP_CLOSED;
        if (!request.wants_routing_dump) continue;
        neli_kernel_dump_new(&dump, &request, sizeof out);
        neli_kernel_dump_push(&dump, RTM_NEWLINK, 0, &link, sizeof link);
        neli_kernel_dump_push(&dump, RTM_NEWLINK, NLM_F_DUMP_INTR, &link, sizeof link);
        neli_kernel_dump_finish(&dump, 0, 0, NULL, 0);
        while (neli_kernel_dump_next(&dump, out, sizeof out, &size) == NELI_ITEM)
            neli_router_datagram(router, out, size, NULL, 0);
        neli_kernel_dump_free(&dump);
    }
}

int main(void) {
    const struct ifinfomsg all = {0};
    struct neli_router router = NELI_ROUTER_CLOSED;
    struct neli_sent request;
    struct neli_item item;
    struct neli_verdict verdict;
    uint8_t sent[64];
    int links = 0;
    if (neli_router_new(&router, 7) != NELI_OK) return 1;
    neli_router_send(&router, RTM_GETLINK, NLM_F_DUMP, &all, sizeof all, sent, sizeof sent, &request);
    serve(&router, sent, request.length);
    while (neli_router_read(&router, request.handle, &item) == NELI_ITEM) links += item.type == RTM_NEWLINK;
    int32_t code = neli_router_verdict(&router, request.handle, &verdict);
    neli_router_free(&router);
    return links == 2 && code == NELI_INTERRUPTED ? 0 : 1; /* the client would ask again */
}
