/* A caching reverse proxy over the gateway, in C: it moves bytes between sockets, and nothing else. It isn't for load. A thread has a client's connection and
   the origin's of the exchange that goes on; where the origin's side goes on for nobody, another thread takes the client's next request.

   usage: mover PORT ORIGIN_PORT
   gcc -D_GNU_SOURCE -std=c11 -O2 examples/mover.c -I embed embed/out/libcache_tier.a -lpthread -o mover */
#include "cache_gateway.h"
#include <arpa/inet.h>
#include <poll.h>
#include <pthread.h>
#include <signal.h>
#include <stdio.h>
#include <sys/eventfd.h>
#include <sys/random.h>
#include <sys/socket.h>
#include <time.h>
#include <unistd.h>

enum { ROOM = 1 << 17, WAKERS = 1 << 12 };
struct bytes { uint8_t data[ROOM]; size_t len; };
struct waker { struct waker *next; uint64_t exchange; int fd; };
struct conn {
    int client, origin, wake; /* -1: none */
    uint64_t exchange;
    int body, head, blocked, ends, broken; /* the request's body goes on; the response's head came; after BLOCKED; the answer is over; after MEMORY */
    struct bytes in, from;               /* what came from the client, and from the origin, and isn't used yet */
    cache_tier_moment at;
};
static cache_gateway *gateway;
static pthread_mutex_t lock = PTHREAD_MUTEX_INITIALIZER;
static struct waker *wakers[WAKERS]; /* by the exchange: whom to wake */
static struct sockaddr_in origin_address;

static cache_tier_moment now(void) { /* under the lock: the host's clock may be set back, and what is told never goes back */
    static cache_tier_moment last;
    struct timespec t;
    clock_gettime(CLOCK_REALTIME, &t);
    if ((uint64_t)t.tv_sec > last.seconds || ((uint64_t)t.tv_sec == last.seconds && (uint64_t)t.tv_nsec > last.nanoseconds))
        last = (cache_tier_moment){(uint64_t)t.tv_sec, (uint64_t)t.tv_nsec};
    return last;
}
static void used(struct bytes *b, size_t n) { memmove(b->data, b->data + n, b->len -= n); }
static int more(int fd, struct bytes *b) { /* above 0: some came; 0: the other side has ended; below: it failed */
    ssize_t n = b->len < ROOM ? read(fd, b->data + b->len, ROOM - b->len) : -1;
    if (n > 0) b->len += (size_t)n;
    return (int)n;
}
static int writes(int fd, cache_tier_slice it) {
    for (ssize_t n; it.len; it.ptr = (const uint8_t *)it.ptr + n, it.len -= (size_t)n)
        if ((n = write(fd, it.ptr, it.len)) <= 0) return 0;
    return 1;
}
static void closes(int *fd) {
    if (*fd >= 0) close(*fd);
    *fd = -1;
}
static void wakes(struct waker *it, uint64_t x) { /* x, or all of them */
    for (; it; it = it->next)
        if ((it->exchange == x || !x) && write(it->fd, &(uint64_t){1}, 8) < 0) perror("wake");
}
static void note(cache_gateway_out *out, struct waker *own) { /* under the lock: whom an out wakes; `own` is where its exchange is woken from here on */
    if (own) own->next = wakers[own->exchange % WAKERS], wakers[own->exchange % WAKERS] = own;
    for (uint64_t i = 0, x; i < out->wakes; i++) x = cache_gateway_out_wake(out, i), wakes(wakers[x % WAKERS], x);
    for (size_t i = 0; out->status == CACHE_TIER_MEMORY && i < WAKERS; i++) wakes(wakers[i], 0);
}
/* A call of the gateway, under the lock. What it wakes is other threads. */
#define CALL(call) (pthread_mutex_lock(&lock), (call), note(&out, NULL), pthread_mutex_unlock(&lock), obey(c, &out))

static void *serve(void *arg);
static void begins(int client, const struct bytes *rest) {
    pthread_t thread;
    struct conn *c = calloc(1, sizeof *c);
    if (!c) return (void)close(client);
    c->client = client, c->origin = -1;
    if (rest) c->in = *rest;
    if (pthread_create(&thread, NULL, serve, c)) close(client), free(c);
    else pthread_detach(thread);
}
static void connects(struct conn *c) {
    closes(&c->origin);
    c->origin = socket(AF_INET, SOCK_STREAM | SOCK_CLOEXEC, 0);
    if (connect(c->origin, (struct sockaddr *)&origin_address, sizeof origin_address)) closes(&c->origin);
    c->from.len = 0, c->head = c->blocked = 0;
}
/* Does what an out says: the whole of a mover's work. */
static void obey(struct conn *c, cache_gateway_out *out) {
    cache_tier_slice pieces[16];
    if (out->has_at) c->at = out->at;
    else c->at.seconds = UINT64_MAX;
    for (uint64_t i = 0; i < out->pieces && c->client >= 0; i += 16) {
        size_t n = cache_gateway_out_pieces(out, i, pieces, 16);
        for (size_t j = 0; j < n && c->client >= 0; j++)
            if (!writes(c->client, pieces[j])) closes(&c->client);
    }
    if (out->origin == CACHE_GATEWAY_ORIGIN_SEND_REQUEST) connects(c);
    if (out->to_origin.len && c->origin >= 0) writes(c->origin, out->to_origin); /* (where that fails an answer may have come) */
    if (out->origin == CACHE_GATEWAY_ORIGIN_RECEIVE_BODY) c->head = 1;
    if (out->origin == CACHE_GATEWAY_ORIGIN_CONTINUE) c->blocked = 0;
    if (out->origin == CACHE_GATEWAY_ORIGIN_REUSABLE || out->origin == CACHE_GATEWAY_ORIGIN_CLOSE_ORIGIN) closes(&c->origin), c->from.len = 0;
    if (out->status == CACHE_GATEWAY_BLOCKED) c->blocked = 1;
    if (out->status == CACHE_TIER_MEMORY) c->broken = 1;
    if (out->origin == CACHE_GATEWAY_ORIGIN_SEND_REQUEST && c->origin < 0) { /* nobody is there */
        cache_gateway_out told = CACHE_TIER_RESPONSE_INIT;
        pthread_mutex_lock(&lock), cache_gateway_origin_closed(gateway, now(), c->exchange, CACHE_GATEWAY_CLOSED_FAILED, &told), note(&told, NULL), pthread_mutex_unlock(&lock);
        obey(c, &told), cache_gateway_out_free(&told);
        if (write(c->wake, &(uint64_t){1}, 8) < 0) perror("wake");
    }
    if (out->client > CACHE_GATEWAY_CLIENT_WAIT) c->ends = (int)out->client;
}
/* Gives the gateway what came from the origin. */
static void gives(struct conn *c) {
    cache_gateway_out out = CACHE_TIER_RESPONSE_INIT;
    uint64_t had;
    do {
        had = c->from.len;
        if (c->head) CALL(cache_gateway_response_data(gateway, now(), c->exchange, c->from.data, c->from.len, &out));
        else CALL(cache_gateway_response_head(gateway, now(), c->exchange, c->from.data, c->from.len, &out));
        if (c->from.len) used(&c->from, out.used);
    } while (c->origin >= 0 && c->from.len && !c->blocked && (out.used || out.origin == CACHE_GATEWAY_ORIGIN_RECEIVE_BODY) && had);
    cache_gateway_out_free(&out);
}
/* One exchange, from its head on. Whether the connection stays. */
static int exchange(struct conn *c) {
    cache_gateway_request request = CACHE_TIER_RESPONSE_INIT;
    cache_gateway_out out = CACHE_TIER_RESPONSE_INIT;
    struct waker own = {.fd = c->wake}, **at;
    size_t looked = 0;
    while (cache_gateway_parse_request(gateway, c->in.data, c->in.len, looked, &request) == CACHE_GATEWAY_NEED_MORE) {
        looked = c->in.len;
        if (more(c->client, &c->in) <= 0) return 0;
    }
    c->ends = 0, c->body = 0;
    pthread_mutex_lock(&lock), cache_gateway_start(gateway, now(), &request, "127.0.0.1", 9, &out), own.exchange = c->exchange = out.exchange, note(&out, &own), pthread_mutex_unlock(&lock);
    used(&c->in, out.used), c->body = out.body_follows != 0, obey(c, &out);
    for (;;) {
        if (c->broken && c->origin >= 0) closes(&c->origin), CALL(cache_gateway_origin_closed(gateway, now(), c->exchange, CACHE_GATEWAY_CLOSED_FAILED, &out));
        if (c->broken) closes(&c->client);
        if (c->ends > CACHE_GATEWAY_CLIENT_END) closes(&c->client);
        if (c->ends && c->origin < 0) break;
        pthread_mutex_lock(&lock);
        cache_tier_moment t = now();
        pthread_mutex_unlock(&lock);
        struct pollfd fds[3] = {{.fd = c->wake, .events = POLLIN}, {.fd = c->blocked ? -1 : c->origin, .events = POLLIN}, {.fd = c->body && !c->in.len && !c->ends ? c->client : -1, .events = POLLIN}};
        int64_t due = c->at.seconds == UINT64_MAX ? 60000 : (int64_t)(c->at.seconds - t.seconds) * 1000 + ((int64_t)c->at.nanoseconds - (int64_t)t.nanoseconds) / 1000000 + 1;
        uint64_t count;
        poll(fds, 3, c->broken || (c->body && c->in.len && !c->ends) ? 0 : due < 0 ? 0 : due > 60000 ? 60000 : (int)due);
        if (fds[0].revents && read(c->wake, &count, 8) < 0) perror("wake");
        if (c->body && !c->ends && (c->in.len || fds[2].revents)) {
            if (!c->in.len && more(c->client, &c->in) <= 0) closes(&c->client);
            else CALL(cache_gateway_request_data(gateway, now(), c->exchange, c->in.data, c->in.len, &out)), used(&c->in, out.used), c->body = !out.last && out.status == CACHE_GATEWAY_DONE;
        }
        if (c->origin >= 0 && fds[1].revents) {
            int n = more(c->origin, &c->from);
            if (n > 0) gives(c);
            else closes(&c->origin), CALL(cache_gateway_origin_closed(gateway, now(), c->exchange, n ? CACHE_GATEWAY_CLOSED_FAILED : CACHE_GATEWAY_CLOSED_CLEAN, &out));
        }
        if (c->client < 0 && !c->ends) c->ends = CACHE_GATEWAY_CLIENT_TRUNCATED, CALL(cache_gateway_client_closed(gateway, now(), c->exchange, &out));
        CALL(cache_gateway_poll(gateway, now(), c->exchange, &out));
        if (c->from.len && !c->blocked && c->origin >= 0) gives(c); /* after CONTINUE */
        if (c->ends == CACHE_GATEWAY_CLIENT_END && c->origin >= 0 && c->client >= 0) begins(c->client, &c->in), c->client = -1; /* it goes on for others */
    }
    pthread_mutex_lock(&lock);
    for (at = &wakers[own.exchange % WAKERS]; *at != &own; at = &(*at)->next) continue;
    *at = own.next;
    pthread_mutex_unlock(&lock);
    cache_gateway_out_free(&out), cache_gateway_request_free(&request);
    return c->client >= 0;
}
static void *serve(void *arg) {
    struct conn *c = arg;
    c->wake = eventfd(0, EFD_CLOEXEC);
    while (exchange(c)) continue;
    closes(&c->client), closes(&c->wake), free(c);
    return NULL;
}

int main(int argc, char **argv) {
    cache_rules_options options = cache_rules_default_options();
    cache_gateway_limits limits = cache_gateway_default_limits();
    struct sockaddr_in own = {.sin_family = AF_INET, .sin_addr.s_addr = htonl(INADDR_LOOPBACK)};
    int client, listens = socket(AF_INET, SOCK_STREAM, 0), on = 1;
    char secret[32];
    if (argc != 3 || getrandom(secret, sizeof secret, 0) != sizeof secret) return 2;
    signal(SIGPIPE, SIG_IGN);
    origin_address = own, origin_address.sin_port = htons((uint16_t)atoi(argv[2])), own.sin_port = htons((uint16_t)atoi(argv[1]));
    setsockopt(listens, SOL_SOCKET, SO_REUSEADDR, &on, sizeof on);
    if (cache_gateway_open(&gateway, now(), &limits, &options, secret, sizeof secret) || bind(listens, (struct sockaddr *)&own, sizeof own) || listen(listens, 512)) return 1;
    while ((client = accept(listens, NULL, NULL)) >= 0) begins(client, NULL);
    return 1;
}
