// Sends a request again and again on many connections at once, each with some requests outstanding.
//
//     clients PORT CONNECTIONS OUTSTANDING REQUESTS TAG CODE < MESSAGES
//
// Standard input has two messages, each with a message id of one octet. The first is a bind: it is sent once on each
// connection, which waits for success. The second is sent REQUESTS times in all, with message ids 1 to OUTSTANDING on
// each connection. An answer ends with a message whose operation has the tag TAG, a number, and the result code CODE;
// another code ends the program. It prints how many answers came in a second, and the latency of the middle one, of the
// 99th of 100 and of the slowest, in microseconds.

#include <arpa/inet.h>
#include <netinet/in.h>
#include <netinet/tcp.h>
#include <stdio.h>
#include <stdlib.h>
#include <string.h>
#include <sys/epoll.h>
#include <sys/socket.h>
#include <time.h>
#include <unistd.h>

enum { ROOM = 1 << 16, MOST = 256, MOST_OUTSTANDING = 127, BOUND = 0x61 };

struct connection {
    int socket;
    double sent[MOST_OUTSTANDING + 1];
    size_t len;
    unsigned char octets[ROOM];
};

static struct connection all[MOST];

static double now(void)
{
    struct timespec at;
    clock_gettime(CLOCK_MONOTONIC, &at);
    return at.tv_sec * 1e6 + at.tv_nsec / 1e3;
}

static void fail(const char *what)
{
    perror(what);
    exit(1);
}

// The length of the element at the front, its header among it; 0 where the header isn't whole.
static size_t element(const unsigned char *at, size_t len, size_t *header)
{
    if (len < 2) return 0;
    size_t octets = at[1] < 128 ? 0 : at[1] & 127, content = octets ? 0 : at[1];
    if (len < 2 + octets) return 0;
    for (size_t i = 0; i < octets; i++) content = content << 8 | at[2 + i];
    *header = 2 + octets;
    return *header + content;
}

static void write_all(int socket, const unsigned char *octets, size_t len)
{
    if (write(socket, octets, len) != (ssize_t)len) fail("write");
}

static void ask(struct connection *one, unsigned char *request, size_t len, int id)
{
    size_t header = 0;
    element(request, len, &header);
    request[header + 2] = id;
    one->sent[id] = now();
    write_all(one->socket, request, len);
}

static void more(struct connection *one)
{
    ssize_t got = read(one->socket, one->octets + one->len, ROOM - one->len);
    if (got <= 0) fail("read");
    one->len += got;
}

// Takes whole messages away; puts the ids of the answers that ended into `ids`, and gives how many.
static int ended(struct connection *one, int tag, int code, int *ids)
{
    size_t from = 0, header = 0, inner = 0, whole;
    int found = 0;
    while ((whole = element(one->octets + from, one->len - from, &header)) && from + whole <= one->len) {
        const unsigned char *id = one->octets + from + header, *operation = id + 2 + id[1];
        if (operation[0] == tag) {
            element(operation, whole, &inner);
            if (operation[inner + 2] != code) {
                fprintf(stderr, "an answer with the result code %d\n", operation[inner + 2]);
                exit(1);
            }
            ids[found++] = id[1 + id[1]];
        }
        from += whole;
    }
    one->len -= from;
    memmove(one->octets, one->octets + from, one->len);
    return found;
}

static int by_value(const void *a, const void *b)
{
    double one = *(const double *)a, other = *(const double *)b;
    return (one > other) - (one < other);
}

int main(int count, char **words)
{
    static unsigned char messages[ROOM];
    int ids[ROOM / 8];
    if (count != 7) return 2;
    int connections = atoi(words[2]), outstanding = atoi(words[3]), requests = atoi(words[4]);
    int tag = atoi(words[5]), code = atoi(words[6]);
    if (connections < 1 || connections > MOST || outstanding < 1 || outstanding > MOST_OUTSTANDING) return 2;
    if (requests < connections * outstanding) return 2;
    size_t given = fread(messages, 1, ROOM, stdin), header = 0, bind_len = element(messages, given, &header);
    unsigned char *request = messages + bind_len;
    size_t request_len = given - bind_len;
    double *latencies = calloc(requests, sizeof *latencies);
    int poll = epoll_create1(0), on = 1;
    struct sockaddr_in to = {.sin_family = AF_INET, .sin_port = htons(atoi(words[1]))};
    to.sin_addr.s_addr = htonl(INADDR_LOOPBACK);
    for (int i = 0; i < connections; i++) {
        all[i].socket = socket(AF_INET, SOCK_STREAM, 0);
        if (connect(all[i].socket, (struct sockaddr *)&to, sizeof to)) fail("connect");
        setsockopt(all[i].socket, IPPROTO_TCP, TCP_NODELAY, &on, sizeof on);
        struct epoll_event event = {.events = EPOLLIN, .data.u32 = i};
        epoll_ctl(poll, EPOLL_CTL_ADD, all[i].socket, &event);
        write_all(all[i].socket, messages, bind_len);
        do more(&all[i]);
        while (!ended(&all[i], BOUND, 0, ids));
    }
    double start = now();
    int sent = 0, done = 0;
    for (int i = 0; i < connections; i++)
        for (int id = 1; id <= outstanding; id++, sent++) ask(&all[i], request, request_len, id);
    while (done < requests) {
        struct epoll_event events[MOST];
        int ready = epoll_wait(poll, events, MOST, 10000);
        if (ready <= 0) fail("no answer");
        for (int i = 0; i < ready; i++) {
            struct connection *one = &all[events[i].data.u32];
            more(one);
            int found = ended(one, tag, code, ids);
            for (int k = 0; k < found; k++) {
                latencies[done++] = now() - one->sent[ids[k]];
                if (sent < requests) {
                    sent++;
                    ask(one, request, request_len, ids[k]);
                }
            }
        }
    }
    double seconds = (now() - start) / 1e6;
    qsort(latencies, requests, sizeof *latencies, by_value);
    printf("%.0f %.0f %.0f %.0f\n", requests / seconds, latencies[requests / 2], latencies[requests / 100 * 99],
           latencies[requests - 1]);
    return 0;
}
