// Peers that take what they can from a server on loopback, and an honest client that waits beside them.
//
//     hostile honest PORT SECONDS PATIENCE OUTSTANDING < MESSAGES
//     hostile peers PORT CONNECTIONS HOW ANSWERS SECONDS < OCTETS
//
// `honest` sends what standard input has, a bind and a search of one entry, every 10 ms for SECONDS on one connection,
// which it opens anew where it ended, and then waits at most PATIENCE seconds for what is outstanding. Where so many
// are OUTSTANDING it waits for an answer before it sends the next; a request waits from when it is due. It prints how
// many requests were due, how many were answered by success and an entry, how many otherwise, the wait of the 99th of
// 100 and the longest one in microseconds, each with 1 behind it where that request had no answer and 0 where it had
// one, and how often it connected anew. SIGTERM ends it early.
//
// `peers` opens CONNECTIONS connections, and sends the octets of standard input on each. HOW says what it reads:
// `never` nothing, `slowly` 4,096 octets of each ten times a second, `all` what comes; `again` is `all`, and opens a
// connection anew where one was ended, at most MOST_AGAIN times in all; each begins at another BLOCK of the octets.
// It ends where as many searches were answered as ANSWERS on each connection (0: never), where all connections were
// ended, or after SECONDS. It prints the microseconds until then, the octets read, the searches answered, the
// connections that the server ended, and the code of the last answer. SIGTERM ends it early.

#define _GNU_SOURCE
#include <arpa/inet.h>
#include <errno.h>
#include <fcntl.h>
#include <netinet/in.h>
#include <netinet/tcp.h>
#include <poll.h>
#include <signal.h>
#include <stdio.h>
#include <stdlib.h>
#include <string.h>
#include <sys/socket.h>
#include <time.h>
#include <unistd.h>

enum {
    ROOM = 1 << 22, PIECE = 1 << 18, SLOW_PIECE = 1 << 12, SMALL_BUFFER = 1 << 16, FRONT = 24,
    MOST = 1024, MOST_AGAIN = 20000, BLOCK = 1 << 12, EVERY = 10000, SLOW_EVERY = 100000,
    ENTRY = 0x64, DONE = 0x65, BOUND = 0x61
};

// Replies as they come: the front of the message that is heard in part, and how much of it is still to come.
struct replies {
    unsigned char front[FRONT];
    size_t len, rest;
    int entries, done, code, bound_code;
};

static unsigned char octets[ROOM], piece[PIECE];
static volatile sig_atomic_t is_stopped;

static void stop(int signal) { (void)signal; is_stopped = 1; }

static double now(void)
{
    struct timespec at;
    clock_gettime(CLOCK_MONOTONIC, &at);
    return at.tv_sec * 1e6 + at.tv_nsec / 1e3;
}

// The length of the element at the front, its header among it; 0 where the header isn't whole.
static size_t element(const unsigned char *at, size_t len, size_t *header)
{
    if (len < 2) return 0;
    size_t count = at[1] < 128 ? 0 : at[1] & 127, content = count ? 0 : at[1];
    if (len < 2 + count) return 0;
    for (size_t i = 0; i < count; i++) content = content << 8 | at[2 + i];
    *header = 2 + count;
    return *header + content;
}

// Counts a message of which the front is there.
static void count(struct replies *to)
{
    size_t header = 0, inner = 0;
    element(to->front, to->len, &header);
    if (header + 2 > to->len) return;
    size_t at = header + 2 + to->front[header + 1];
    if (at + 2 > to->len) return;
    int tag = to->front[at];
    element(to->front + at, to->len - at, &inner);
    int code = at + inner + 2 < to->len ? to->front[at + inner + 2] : -1;
    if (tag == ENTRY) to->entries++;
    if (tag == BOUND) to->bound_code = code;
    if (tag == DONE) to->done++, to->code = code;
}

// Hears octets until the end of a search's answer; gives how many of them it took.
static size_t hear(struct replies *to, const unsigned char *at, size_t len)
{
    size_t from = 0;
    int before = to->done;
    while (from < len && to->done == before) {
        if (to->rest) {
            size_t skipped = to->rest < len - from ? to->rest : len - from;
            to->rest -= skipped;
            from += skipped;
            continue;
        }
        to->front[to->len++] = at[from++];
        size_t header = 0, whole = element(to->front, to->len, &header);
        if (!whole || (to->len < whole && to->len < FRONT)) continue;
        count(to);
        to->rest = whole - to->len;
        to->len = 0;
    }
    return from;
}

// A connection that doesn't block, or -1.
static int opened(int port, int buffer)
{
    int to = socket(AF_INET, SOCK_STREAM, 0), on = 1;
    struct sockaddr_in at = {.sin_family = AF_INET, .sin_port = htons(port)};
    at.sin_addr.s_addr = htonl(INADDR_LOOPBACK);
    if (to < 0) return -1;
    if (buffer) setsockopt(to, SOL_SOCKET, SO_RCVBUF, &buffer, sizeof buffer);
    setsockopt(to, IPPROTO_TCP, TCP_NODELAY, &on, sizeof on);
    fcntl(to, F_SETFL, O_NONBLOCK);
    if (connect(to, (struct sockaddr *)&at, sizeof at) && errno != EINPROGRESS) {
        close(to);
        return -1;
    }
    return to;
}

static int is_later(void) { return errno == EAGAIN || errno == EINTR || errno == EINPROGRESS || errno == ENOTCONN; }

// --- the honest client ---

struct request {
    double wait;
    int is_lost;
};

static int by_wait(const void *a, const void *b)
{
    double one = ((const struct request *)a)->wait, other = ((const struct request *)b)->wait;
    return (one > other) - (one < other);
}

struct honest {
    int socket, sent, oldest, unsent, again, good, otherwise;
    double start;
    struct replies replies;
    struct request *all;
};


// When the request of this number is due.
static double due_at(const struct honest *one, int number) { return one->start + number * (double)EVERY; }

// What was outstanding has no answer any more.
static void lose(struct honest *one)
{
    if (one->socket >= 0) close(one->socket);
    for (; one->oldest < one->sent; one->oldest++) one->all[one->oldest].is_lost = 1;
    one->socket = -1;
    one->unsent = 0;
    one->replies = (struct replies){.code = -1};
}

static void answer(struct honest *one)
{
    one->all[one->oldest].wait = now() - due_at(one, one->oldest);
    one->oldest++;
    if (one->replies.code == 0 && one->replies.bound_code == 0 && one->replies.entries == 1) one->good++;
    else one->otherwise++;
    one->replies.entries = 0;
    one->replies.bound_code = -1;
}

static void read_answers(struct honest *one)
{
    ssize_t got = read(one->socket, piece, PIECE);
    if (got == 0 || (got < 0 && !is_later())) { lose(one); return; }
    for (ssize_t from = 0; from < got;) {
        int before = one->replies.done;
        from += hear(&one->replies, piece + from, got - from);
        if (one->replies.done > before && one->oldest < one->sent) answer(one);
    }
}

// Sends what is due; `unsent` octets at the end of the last requests were not taken yet.
static void write_requests(struct honest *one, size_t len)
{
    while (one->unsent > 0) {
        size_t at = (len - one->unsent % len) % len;
        ssize_t given = send(one->socket, octets + at, len - at, MSG_NOSIGNAL);
        if (given < 0 && !is_later()) { lose(one); return; }
        if (given <= 0) return;
        one->unsent -= given;
    }
}

// All that were due by the end count: those without an answer by the time from then on.
static void print_honest(struct honest *one, int most, double end)
{
    int due = (end - one->start) / EVERY + 1, count = due < most ? due : most;
    for (int i = 0; i < count; i++) {
        if (i >= one->oldest) one->all[i].is_lost = 1;
        if (one->all[i].is_lost) one->all[i].wait = end - due_at(one, i);
    }
    qsort(one->all, count, sizeof *one->all, by_wait);
    struct request none = {0}, *longest = count ? &one->all[count - 1] : &none;
    struct request *most_of_100 = count ? &one->all[(count * 99LL - 1) / 100] : &none;
    printf("%d %d %d %.0f %d %.0f %d %d\n", count, one->good, one->otherwise, most_of_100->wait,
           most_of_100->is_lost, longest->wait, longest->is_lost, one->again);
}

static void send_due(struct honest *one, int port, size_t len)
{
    if (one->socket < 0) {
        one->socket = opened(port, 0);
        one->again++;
    }
    one->sent++;
    if (one->socket >= 0) one->unsent += len;
    else one->all[one->oldest++].is_lost = 1;
}

static int honest(int port, double seconds, double patience, int outstanding, size_t len)
{
    static struct honest one = {.replies = {.code = -1}};
    int most = seconds * 1e6 / EVERY;
    one.all = calloc(most + 1, sizeof *one.all);
    signal(SIGTERM, stop);
    one.socket = opened(port, 0);
    one.start = now();
    double end = one.start + seconds * 1e6 + patience * 1e6;
    while (!is_stopped && now() < end && (one.sent < most || one.oldest < one.sent)) {
        int may_send = one.sent < most && one.sent - one.oldest < outstanding;
        double left = (may_send ? due_at(&one, one.sent) : end) - now();
        struct pollfd on = {.fd = one.socket, .events = POLLIN | (one.unsent ? POLLOUT : 0)};
        struct timespec pause = {.tv_sec = left > 1e6 ? 1 : 0, .tv_nsec = left > 1e6 || left < 0 ? 0 : left * 1e3};
        ppoll(&on, 1, &pause, NULL);
        if (one.socket >= 0 && on.revents & (POLLIN | POLLHUP | POLLERR)) read_answers(&one);
        while (one.sent < most && one.sent - one.oldest < outstanding && due_at(&one, one.sent) <= now())
            send_due(&one, port, len);
        if (one.socket >= 0) write_requests(&one, len);
    }
    print_honest(&one, most, now());
    return 0;
}

// --- the peers ---

struct peer {
    int socket;
    size_t sent;
    struct replies replies;
};

struct peers {
    int port, open, ended, again, done, code;
    size_t len;
    double octets;
    struct peer all[MOST];
};

static struct peers them;

static void open_peer(struct peer *one, int buffer)
{
    one->socket = opened(them.port, buffer);
    one->replies = (struct replies){.code = -1};
    if (one->socket >= 0) them.open++;
}

static void end_peer(struct peer *one, int is_again)
{
    close(one->socket);
    one->socket = -1;
    them.open--;
    them.ended++;
    if (!is_again || them.again++ >= MOST_AGAIN) return;
    one->sent = (size_t)them.again * BLOCK % them.len;
    open_peer(one, 0);
}

// Reads a piece; gives whether the connection still stands.
static int read_piece(struct peer *one, size_t len)
{
    ssize_t got = read(one->socket, piece, len);
    if (got == 0 || (got < 0 && !is_later())) return 0;
    for (ssize_t from = 0; from < got;) {
        int before = one->replies.done;
        from += hear(&one->replies, piece + from, got - from);
        if (one->replies.done > before) them.done++, them.code = one->replies.code;
    }
    if (got > 0) them.octets += got;
    return 1;
}

// Sends what is left; gives whether the connection still stands. With `again` the octets come round.
static int send_rest(struct peer *one, int is_again)
{
    size_t len = them.len;
    if (is_again && one->sent >= len) one->sent = 0;
    if (one->sent >= len) return 1;
    ssize_t given = send(one->socket, octets + one->sent, len - one->sent, MSG_NOSIGNAL);
    if (given < 0 && !is_later()) return 0;
    if (given > 0) one->sent += given;
    return 1;
}

static int peers(int port, int count, const char *how, int answers, double seconds, size_t len)
{
    static struct pollfd on[MOST];
    int is_again = !strcmp(how, "again"), is_slow = !strcmp(how, "slowly"), is_deaf = !strcmp(how, "never");
    double start = now(), end = start + seconds * 1e6, slow_at = start;
    if (count < 1 || count > MOST || (is_again && !len)) return 2;
    them.port = port, them.len = len, them.code = -1;
    signal(SIGTERM, stop);
    for (int i = 0; i < count; i++) {
        open_peer(&them.all[i], is_slow || is_deaf ? SMALL_BUFFER : 0);
        if (is_again) them.all[i].sent = (size_t)i * BLOCK % len;
    }
    while (!is_stopped && them.open && now() < end && !(answers && them.done >= answers * count)) {
        int may_read = !is_deaf && (!is_slow || now() >= slow_at);
        if (is_slow && may_read) slow_at += SLOW_EVERY;
        for (int i = 0; i < count; i++) {
            int has_more = is_again || them.all[i].sent < len;
            on[i].fd = them.all[i].socket;
            on[i].events = (may_read ? POLLIN : 0) | (is_deaf ? POLLRDHUP : 0) | (has_more ? POLLOUT : 0);
        }
        double left = (is_slow && slow_at < end ? slow_at : end) - now();
        poll(on, count, is_slow && may_read ? 0 : left < 0 ? 0 : left > 2e5 ? 200 : left / 1e3 + 1);
        for (int i = 0; i < count; i++) {
            struct peer *one = &them.all[i];
            int stands = one->socket >= 0;
            if (!stands) continue;
            if (on[i].revents & (POLLERR | POLLNVAL)) stands = 0;
            if (stands && on[i].revents & POLLOUT) stands = send_rest(one, is_again);
            if (stands && may_read && on[i].revents & (POLLIN | POLLHUP))
                stands = read_piece(one, is_slow ? SLOW_PIECE : PIECE);
            else if (stands && on[i].revents & (POLLHUP | POLLRDHUP)) stands = 0;
            if (!stands) end_peer(one, is_again);
        }
    }
    printf("%.0f %.0f %d %d %d\n", now() - start, them.octets, them.done, them.ended, them.code);
    return 0;
}

int main(int count, char **words)
{
    size_t len = fread(octets, 1, ROOM, stdin);
    if (count == 6 && !strcmp(words[1], "honest") && len)
        return honest(atoi(words[2]), atof(words[3]), atof(words[4]), atoi(words[5]), len);
    if (count == 7 && !strcmp(words[1], "peers"))
        return peers(atoi(words[2]), atoi(words[3]), words[4], atoi(words[5]), atof(words[6]), len);
    return 2;
}
