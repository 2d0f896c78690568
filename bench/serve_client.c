/* Clients of the desk's server, to measure it.

   serve_client -p PORT -n CONNECTIONS -c CALLS   calls the server at 127.0.0.1:PORT
   serve_client -n CONNECTIONS -c CALLS           calls an echo in this process, which answers with as many bytes

   Each connection is kept and has a thread, which connects to the service `main` and then sends one SELECT by key after
   another, each as soon as the last is answered. It prints on one line: calls per second, the median and the longest time
   of a call in microseconds. Then it keeps the connections until its input ends. */
#include <arpa/inet.h>
#include <netinet/tcp.h>
#include <pthread.h>
#include <stdbool.h>
#include <stdio.h>
#include <stdlib.h>
#include <string.h>
#include <sys/socket.h>
#include <time.h>
#include <unistd.h>

enum { ROOM = 4096, MOST_CONNECTIONS = 64, STACK = 1 << 16, ROWS = 100 };

static const char connect_call[] = "{\"connect\":\"main\"}";
static const char connected[] = "{\"draws\":[],\"made\":null,\"outcome\":{\"connected\":true}}";
static const char selected[] = "{\"draws\":[],\"made\":null,\"outcome\":{\"rows\":[[1000]]}}";

struct client {
    pthread_t thread;
    int stream;
    int calls;
    double *micros;
};

static pthread_barrier_t ready, done;

static void fail(const char *what) {
    perror(what);
    exit(1);
}

static double now_micros(void) {
    struct timespec time;
    clock_gettime(CLOCK_MONOTONIC, &time);
    return time.tv_sec * 1e6 + time.tv_nsec / 1e3;
}

static struct sockaddr_in address(int port) {
    struct sockaddr_in at = {.sin_family = AF_INET, .sin_port = htons(port)};
    at.sin_addr.s_addr = htonl(INADDR_LOOPBACK);
    return at;
}

static void send_at_once(int stream) {
    int on = 1;
    setsockopt(stream, IPPROTO_TCP, TCP_NODELAY, &on, sizeof on);
}

static void write_all(int stream, const char *bytes, size_t length) {
    while (length > 0) {
        ssize_t sent = send(stream, bytes, length, MSG_NOSIGNAL);
        if (sent <= 0) fail("send");
        bytes += sent;
        length -= sent;
    }
}

/* Reads a head and its body. Gives the body, which ends with a zero, or NULL where the input ends. The room has both. */
static char *read_message(int stream, char *room) {
    size_t held = 0;
    for (;;) {
        room[held] = 0;
        char *end = strstr(room, "\r\n\r\n"), *length = strstr(room, "Content-Length: ");
        if (end && length && held >= (size_t)(end + 4 - room) + strtoul(length + 16, NULL, 10)) return end + 4;
        ssize_t got = recv(stream, room + held, ROOM - 1 - held, 0);
        if (got <= 0) return NULL;
        held += got;
    }
}

static void exchange(int stream, const char *body, const char *wanted) {
    char room[ROOM];
    int length = snprintf(room, ROOM, "POST /call HTTP/1.1\r\nHost: 127.0.0.1\r\nContent-Length: %zu\r\n\r\n%s",
                          strlen(body), body);
    write_all(stream, room, length);
    char *answer = read_message(stream, room);
    if (!answer || strncmp(room, "HTTP/1.1 200 OK\r\n", 17) || strcmp(answer, wanted)) {
        fprintf(stderr, "answered: %s\n", answer ? room : "nothing");
        exit(1);
    }
}

static void *run_client(void *given) {
    struct client *client = given;
    char body[128];
    exchange(client->stream, connect_call, connected);
    pthread_barrier_wait(&ready);
    for (int k = 0; k < client->calls; k++) {
        double began = now_micros();
        snprintf(body, sizeof body, "{\"binds\":[%d],\"sql\":\"SELECT bal FROM acct WHERE id = :1\"}", 7 * k % ROWS + 1);
        exchange(client->stream, body, selected);
        client->micros[k] = now_micros() - began;
    }
    pthread_barrier_wait(&done);
    return NULL;
}

/* The echo: a thread for each connection reads a message and answers with what the server would. */
static void *run_echo(void *given) {
    int stream = *(int *)given;
    char room[ROOM], answer[ROOM], *body;
    send_at_once(stream);
    while ((body = read_message(stream, room))) {
        const char *reply = strcmp(body, connect_call) ? selected : connected;
        int length = snprintf(answer, ROOM,
                              "HTTP/1.1 200 OK\r\nContent-Type: application/json\r\nContent-Length: %zu\r\n\r\n%s",
                              strlen(reply), reply);
        write_all(stream, answer, length);
    }
    return NULL;
}

static void start(pthread_t *thread, void *(*run)(void *), void *given) {
    pthread_attr_t attributes;
    pthread_attr_init(&attributes);
    pthread_attr_setstacksize(&attributes, STACK);
    if (pthread_create(thread, &attributes, run, given)) fail("pthread_create");
}

static int echo_listener, echo_streams[MOST_CONNECTIONS];

static void *accept_echoes(void *given) {
    pthread_t thread;
    for (int k = 0; k < *(int *)given; k++) {
        if ((echo_streams[k] = accept(echo_listener, NULL, NULL)) < 0) fail("accept");
        start(&thread, run_echo, &echo_streams[k]);
    }
    return NULL;
}

/* Listens for the echo. Gives the port. */
static int listen_for_echo(void) {
    struct sockaddr_in at = address(0);
    socklen_t size = sizeof at;
    echo_listener = socket(AF_INET, SOCK_STREAM, 0);
    if (bind(echo_listener, (struct sockaddr *)&at, size) || listen(echo_listener, MOST_CONNECTIONS)) fail("listen");
    getsockname(echo_listener, (struct sockaddr *)&at, &size);
    return ntohs(at.sin_port);
}

static int connect_to(int port) {
    struct sockaddr_in at = address(port);
    int stream = socket(AF_INET, SOCK_STREAM, 0);
    if (stream < 0 || connect(stream, (struct sockaddr *)&at, sizeof at)) fail("connect");
    send_at_once(stream);
    return stream;
}

static int by_time(const void *left, const void *right) {
    double a = *(const double *)left, b = *(const double *)right;
    return (a > b) - (a < b);
}

int main(int count, char **words) {
    int port = 0, connections = 1, calls = 1000, option;
    while ((option = getopt(count, words, "p:n:c:")) != -1) {
        if (option == 'p') port = atoi(optarg);
        else if (option == 'n') connections = atoi(optarg);
        else if (option == 'c') calls = atoi(optarg);
        else return 2;
    }
    if (connections < 1 || connections > MOST_CONNECTIONS || calls < 1) return 2;
    pthread_t acceptor;
    if (port == 0) {
        port = listen_for_echo();
        start(&acceptor, accept_echoes, &connections);
    }
    struct client clients[MOST_CONNECTIONS];
    double *micros = calloc((size_t)connections * calls, sizeof *micros);
    if (!micros) fail("calloc");
    pthread_barrier_init(&ready, NULL, connections + 1);
    pthread_barrier_init(&done, NULL, connections + 1);
    for (int k = 0; k < connections; k++) {
        clients[k] = (struct client){.stream = connect_to(port), .calls = calls, .micros = micros + (size_t)k * calls};
        start(&clients[k].thread, run_client, &clients[k]);
    }
    pthread_barrier_wait(&ready);
    double began = now_micros();
    pthread_barrier_wait(&done);
    double taken = now_micros() - began;
    size_t all = (size_t)connections * calls;
    qsort(micros, all, sizeof *micros, by_time);
    printf("%.0f %.1f %.1f\n", all / (taken / 1e6), micros[all / 2], micros[all - 1]);
    fflush(stdout);
    while (getchar() != EOF) {
    }
    return 0;
}
