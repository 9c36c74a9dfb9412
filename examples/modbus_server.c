/* A Modbus TCP server for station screens. Usage: modbus_server [--listen ADDRESS] CASE_FILE PORT
 *
 * It dispatches the case file and serves the reply as holding registers; docs/MODBUS.md says which register holds what. Port 0
 * takes a free port. When it is ready it prints the port; SIGTERM or SIGINT ends it with status 0. What it cannot take at its
 * start is said on standard error; then the status is 1. From the repository's root, build it and run it by
 *
 *     gcc -std=c99 -O2 -Iinclude -o target/modbus_server examples/modbus_server.c target/lib/libshahfureel.a
 *     target/modbus_server examples/harbour.case 1502
 *
 * On SIGHUP, and within about a second after the case file has changed, it dispatches it anew, between two requests: each answer is
 * of one reply. Where that is refused the last reply stays, and standard error says why. (A refusal of shahfureel_dispatch leaves the
 * reply's buffer as it was, so that the new reply is made right there.)
 *
 * shahfureel_view makes every answer; this program carries requests and answers. It has one thread, one loop around poll and a
 * place for each of 16 clients, and it allocates nothing while it serves. A place holds the bytes that have come from its client
 * and one answer on its way out. Until that answer is sent whole, nothing more is read from the client. So neither half a request
 * nor a client that does not read its answers makes another client wait. Where all places are taken, a new client gets that of the
 * one that has been silent for longest.
 *
 * Modbus has no authentication: whoever reaches the port reads the registers. So the server listens on 127.0.0.1, unless --listen
 * names another address, of IPv4 or IPv6: let it be one of the station's own network.
 *
 * The frames are those of "MODBUS Messaging on TCP/IP Implementation Guide" V1.0b: a header of 7 bytes, then the request or answer
 * of "MODBUS Application Protocol Specification" V1.1b3. */
#define _POSIX_C_SOURCE 200809L

#include "shahfureel.h"

#include <arpa/inet.h>
#include <errno.h>
#include <fcntl.h>
#include <inttypes.h>
#include <netdb.h>
#include <netinet/in.h>
#include <netinet/tcp.h>
#include <poll.h>
#include <signal.h>
#include <stdio.h>
#include <string.h>
#include <sys/socket.h>
#include <sys/stat.h>
#include <time.h>
#include <unistd.h>

enum { CLIENTS = 16, PAUSE_MS = 1000 };

/* A frame: transaction, protocol and length, 2 bytes each; the unit identifier, 1 byte; the request or answer. The length counts
 * what follows it. */
enum { PROTOCOL_AT = 2, LENGTH_AT = 4, COUNTED_FROM = 6, HEADER = 7, LENGTH_LEAST = 2, LENGTH_MOST = 254 };
enum { FRAME_MAX = COUNTED_FROM + LENGTH_MOST };

enum { EXCEPTION = 0x80, ILLEGAL_FUNCTION = 1 };

/* What is served: the reply to a case file, how that file was when it was read, and when it was looked at. */
struct reply {
    uint8_t bytes[SHAHFUREEL_REPLY_BYTES];
    size_t length;
    const char *name;
    struct stat read;
    time_t looked;
};

static volatile sig_atomic_t asked; /* to dispatch anew, by SIGHUP */

/* A place for a client. Of in, the first `received` bytes have come and are not answered yet; of out, the bytes from `sent` up to
 * `filled` are yet to be sent. What was heard later has a greater number. */
struct client {
    int socket; /* -1 if the place is free */
    uint64_t heard;
    size_t received, sent, filled;
    uint8_t in[FRAME_MAX], out[FRAME_MAX];
};

/* ---- the reply */

/* A complaint; returns 0. */
static int wrong(const char *what, const char *why)
{
    fprintf(stderr, "%s: %s\n", what, why);
    return 0;
}

/* Reads a file, or as much of it as there is room for. */
static int read_file(const char *name, uint8_t *file, size_t room, size_t *length)
{
    FILE *in = fopen(name, "rb");
    if (in == NULL)
        return wrong(name, strerror(errno));
    *length = fread(file, 1, room, in);
    int error = ferror(in) ? errno : 0;
    fclose(in);
    return error == 0 || wrong(name, strerror(error));
}

/* Looks at a file; where there is none, all is 0. */
static void look(const char *name, struct stat *at)
{
    if (stat(name, at) != 0)
        memset(at, 0, sizeof *at);
}

/* Dispatches the case file. It is looked at first, so that a change while it is read is noticed later. */
static int dispatch(struct reply *r)
{
    uint8_t file[SHAHFUREEL_FILE_BYTES_MAX + 1]; /* a byte more than any case file has, so that a longer one is refused */
    size_t length;
    look(r->name, &r->read);
    if (!read_file(r->name, file, sizeof file, &length))
        return 0;
    uint32_t answer = shahfureel_dispatch(file, length, r->bytes, sizeof r->bytes);
    if (answer < SHAHFUREEL_LENGTH_MIN) {
        fprintf(stderr, "%s: refused with %" PRIu32 ": %s\n", r->name, answer, shahfureel_refusal_text(answer));
        return 0;
    }
    r->length = answer;
    return 1;
}

/* Whether the case file is another than the one that was read, or is gone. It is looked at once a second, and only if it is a plain file
 * or was one: a pipe can be read once, and may make its reader wait. */
static int changed(struct reply *r)
{
    struct timespec now;
    struct stat at;
    clock_gettime(CLOCK_MONOTONIC, &now);
    if (now.tv_sec == r->looked)
        return 0;
    r->looked = now.tv_sec;
    look(r->name, &at);
    const struct stat *was = &r->read;
    int plain = S_ISREG(at.st_mode) || (at.st_mode == 0 && S_ISREG(was->st_mode));
    return plain &&
           (at.st_dev != was->st_dev || at.st_ino != was->st_ino || at.st_size != was->st_size ||
            at.st_mtim.tv_sec != was->st_mtim.tv_sec || at.st_mtim.tv_nsec != was->st_mtim.tv_nsec);
}

/* Dispatches the case file anew if that is asked for, or the file has changed. */
static void refresh(struct reply *r)
{
    int wanted = asked;
    asked = 0;
    if (!wanted && !changed(r))
        return;
    if (dispatch(r))
        printf("%s: dispatched anew\n", r->name);
    else
        wrong(r->name, "the last reply is served on");
    fflush(stdout);
}

/* ---- frames */

/* The length of the first frame among the bytes that have come; 0 if it is not there whole; -1 if it is no frame. */
static int first_frame(const struct client *c)
{
    if (c->received < COUNTED_FROM)
        return 0;
    size_t length = (size_t)shahfureel_big_endian(c->in + LENGTH_AT, 2);
    if (shahfureel_big_endian(c->in + PROTOCOL_AT, 2) != 0 || length < LENGTH_LEAST || length > LENGTH_MOST)
        return -1;
    return c->received < COUNTED_FROM + length ? 0 : (int)(COUNTED_FROM + length);
}

/* Writes the answer to a request and returns its length. The view refuses requests by their length alone: the reply is one that
 * dispatch has written, and the answer has its room. Function 3 has 5 bytes; other functions are not served. */
static size_t answer_request(const struct reply *r, const uint8_t *request, size_t length, uint8_t *answer)
{
    int64_t answers[1];
    if (shahfureel_view(r->bytes, r->length, request, length, answer, SHAHFUREEL_VIEW_ANSWER_BYTES, answers, 1) == 0)
        return (size_t)answers[0];
    answer[0] = request[0] | EXCEPTION;
    answer[1] = ILLEGAL_FUNCTION;
    return 2;
}

/* Turns the first frame that has come into the answer that is to be sent. Transaction, protocol and unit identifier stay; the
 * length is at most 1 + 252, so that its high byte is 0. */
static void answer_frame(const struct reply *r, struct client *c, size_t frame)
{
    size_t length = answer_request(r, c->in + HEADER, frame - HEADER, c->out + HEADER);
    memcpy(c->out, c->in, HEADER);
    c->out[LENGTH_AT] = 0;
    c->out[LENGTH_AT + 1] = (uint8_t)(1 + length);
    c->sent = 0;
    c->filled = HEADER + length;
    c->received -= frame;
    memmove(c->in, c->in + frame, c->received);
}

/* ---- clients; 0 means that the connection is over */

/* Whether a socket was only not ready. */
static int not_now(void) { return errno == EAGAIN || errno == EWOULDBLOCK || errno == EINTR; }

static int has_answer(const struct client *c) { return c->sent < c->filled; }

static uint64_t next_number(void)
{
    static uint64_t last;
    return ++last;
}

/* Takes what has come. There is room: a frame that is not there whole is shorter than the longest. */
static int receive(struct client *c)
{
    ssize_t n = recv(c->socket, c->in + c->received, sizeof c->in - c->received, 0);
    if (n < 0)
        return not_now();
    c->received += (size_t)n;
    c->heard = next_number();
    return n > 0;
}

/* Sends what the client takes of its answer. */
static int send_answer(struct client *c)
{
    if (!has_answer(c))
        return 1;
    ssize_t n = send(c->socket, c->out + c->sent, c->filled - c->sent, MSG_NOSIGNAL);
    if (n < 0)
        return not_now();
    c->sent += (size_t)n;
    return 1;
}

/* Answers the frames that have come, one after the other, as long as the client takes the answers. */
static int answer_frames(const struct reply *r, struct client *c)
{
    for (;;) {
        if (!send_answer(c))
            return 0;
        if (has_answer(c))
            return 1;
        int frame = first_frame(c);
        if (frame <= 0)
            return frame == 0;
        answer_frame(r, c, (size_t)frame);
    }
}

/* Goes on with a client whose socket is ready. */
static int attend(const struct reply *r, struct client *c)
{
    if (!has_answer(c) && !receive(c))
        return 0;
    return answer_frames(r, c);
}

/* ---- connections */

static int set_option(int socket, int level, int option, int value)
{
    return setsockopt(socket, level, option, &value, sizeof value) == 0;
}

static int set_nonblocking(int socket)
{
    int flags = fcntl(socket, F_GETFL);
    return flags >= 0 && fcntl(socket, F_SETFL, flags | O_NONBLOCK) == 0;
}

/* Keepalive ends a connection whose other side has vanished: after a minute of silence it is asked, three times in ten seconds
 * each. Without delay, answers to frames that came together follow at once. */
static int set_up(int connection)
{
    return set_nonblocking(connection) && set_option(connection, SOL_SOCKET, SO_KEEPALIVE, 1) &&
           set_option(connection, IPPROTO_TCP, TCP_KEEPIDLE, 60) && set_option(connection, IPPROTO_TCP, TCP_KEEPINTVL, 10) &&
           set_option(connection, IPPROTO_TCP, TCP_KEEPCNT, 3) && set_option(connection, IPPROTO_TCP, TCP_NODELAY, 1);
}

/* Gives a place to a connection, or to none. */
static void give(struct client *c, int connection)
{
    c->socket = connection;
    c->heard = next_number();
    c->received = c->sent = c->filled = 0;
}

static void dismiss(struct client *c)
{
    close(c->socket);
    give(c, -1);
}

/* A free place, or the one whose client has been silent for longest. */
static struct client *place_in(struct client *clients)
{
    struct client *found = &clients[0];
    for (size_t i = 0; i < CLIENTS; i++) {
        if (clients[i].socket < 0)
            return &clients[i];
        if (clients[i].heard < found->heard)
            found = &clients[i];
    }
    return found;
}

/* Accepts a connection. Returns 0 if the system could not give one. */
static int admit(int listening, struct client *clients)
{
    int connection = accept(listening, NULL, NULL);
    if (connection < 0)
        return not_now();
    if (!set_up(connection)) {
        close(connection);
        return 1;
    }
    struct client *place = place_in(clients);
    if (place->socket >= 0)
        dismiss(place);
    give(place, connection);
    return 1;
}

/* The socket that listens on an address that getaddrinfo has made; -1 if there is none. */
static int listening_socket(const struct addrinfo *found)
{
    int listening = socket(found->ai_family, SOCK_STREAM, 0);
    if (listening >= 0 && set_nonblocking(listening) && set_option(listening, SOL_SOCKET, SO_REUSEADDR, 1) &&
        bind(listening, found->ai_addr, found->ai_addrlen) == 0 && listen(listening, SOMAXCONN) == 0)
        return listening;
    return -1;
}

/* The port that a socket is bound to; where port 0 was asked for, the system has chosen it. */
static unsigned port_of(int listening)
{
    struct sockaddr_storage address;
    socklen_t length = sizeof address;
    char port[8] = "";
    if (getsockname(listening, (struct sockaddr *)&address, &length) == 0)
        getnameinfo((const struct sockaddr *)&address, length, NULL, 0, port, sizeof port, NI_NUMERICSERV);
    unsigned number = 0;
    for (const char *at = port; *at != '\0'; at++)
        number = 10 * number + (unsigned)(*at - '0');
    return number;
}

/* Listens on an address and a port and says so. Returns the socket, or -1. */
static int listen_on(const char *address, uint16_t port)
{
    struct addrinfo hints = {.ai_family = AF_UNSPEC, .ai_socktype = SOCK_STREAM, .ai_flags = AI_NUMERICHOST | AI_NUMERICSERV};
    struct addrinfo *found;
    struct in6_addr any;
    char word[8];
    snprintf(word, sizeof word, "%u", (unsigned)port);
    if ((inet_pton(AF_INET, address, &any) != 1 && inet_pton(AF_INET6, address, &any) != 1) ||
        getaddrinfo(address, word, &hints, &found) != 0) {
        wrong(address, "it is no address of IPv4 or IPv6, such as 127.0.0.1 or ::1");
        return -1;
    }
    int listening = listening_socket(found);
    if (listening < 0)
        fprintf(stderr, "%s port %u: %s\n", address, (unsigned)port, strerror(errno));
    freeaddrinfo(found);
    if (listening < 0)
        return -1;
    printf("listening on %s port %u\n", address, port_of(listening));
    if (fflush(stdout) != 0) {
        wrong("standard output", strerror(errno));
        return -1;
    }
    return listening;
}

/* What poll is to watch: each client for what it waits for, then the listening socket. poll passes over -1. */
static void watch(struct pollfd *watched, const struct client *clients, int listening)
{
    for (size_t i = 0; i < CLIENTS; i++) {
        watched[i].fd = clients[i].socket;
        watched[i].events = has_answer(&clients[i]) ? POLLOUT : POLLIN;
    }
    watched[CLIENTS].fd = listening;
    watched[CLIENTS].events = POLLIN;
}

/* Serves until a signal ends the program; returns if poll fails. It wakes once a second to look at the case file. If the system cannot
 * give a connection that waits, such as for want of descriptors, it is asked again after a pause; the clients that are there are served
 * meanwhile. */
static void serve(struct reply *r, int listening)
{
    struct client clients[CLIENTS];
    struct pollfd watched[CLIENTS + 1];
    int admitting = 1;
    for (size_t i = 0; i < CLIENTS; i++)
        give(&clients[i], -1);
    for (;;) {
        watch(watched, clients, admitting ? listening : -1);
        int ready = poll(watched, CLIENTS + 1, PAUSE_MS);
        if (ready < 0 && errno != EINTR) {
            wrong("poll", strerror(errno));
            return;
        }
        refresh(r);
        if (ready < 0)
            continue;
        for (size_t i = 0; i < CLIENTS; i++)
            if (watched[i].revents != 0 && !attend(r, &clients[i]))
                dismiss(&clients[i]);
        admitting = watched[CLIENTS].revents == 0 || admit(listening, clients);
    }
}

/* ---- the program */

/* Ends the program on a signal. Nothing is left to do: what was printed is flushed, and the system closes the sockets. */
static void finish(int number)
{
    (void)number;
    _exit(0);
}

static void ask(int number)
{
    (void)number;
    asked = 1;
}

static void on(int number, void (*handler)(int))
{
    struct sigaction action = {.sa_handler = handler};
    sigemptyset(&action.sa_mask);
    sigaction(number, &action, NULL);
}

static int read_port(const char *word, uint16_t *port)
{
    uint32_t n = 0;
    const char *at = word;
    for (; *at >= '0' && *at <= '9' && n <= UINT16_MAX; at++)
        n = 10 * n + (uint32_t)(*at - '0');
    if (at == word || *at != '\0' || n > UINT16_MAX)
        return wrong("port", "it is not a number from 0 to 65535");
    *port = (uint16_t)n;
    return 1;
}

int main(int words, char **word)
{
    struct reply r = {.length = 0};
    uint16_t port;
    const char *address = "127.0.0.1";
    if (words == 5 && strcmp(word[1], "--listen") == 0) {
        address = word[2];
        word += 2;
    } else if (words != 3) {
        fprintf(stderr, "usage: modbus_server [--listen ADDRESS] CASE_FILE PORT\n");
        return 1;
    }
    on(SIGTERM, finish);
    on(SIGINT, finish);
    on(SIGHUP, ask);
    on(SIGPIPE, SIG_IGN); /* whoever read what it says may be gone */
    r.name = word[1];
    if (!read_port(word[2], &port) || !dispatch(&r))
        return 1;
    int listening = listen_on(address, port);
    if (listening >= 0)
        serve(&r, listening);
    return 1;
}
