/*
 * Echoes by hosts on a link of Linux: bench NAME=PROGRAM.. starts each host in its own network namespace, and sends to
 * it from there. The last host is Linux itself, on a pair of virtual Ethernet devices. Rounds go over all hosts in
 * turn. Sixteen datagrams are under way at once, so that neither side waits for a single one.
 *
 *   echoes a second
 *   processor time of the host    of the host's process, for an echo
 *   of the host and its peer      with that of this process, because Linux charges work for a host to the sender
 *
 * Each is the median of all rounds. ROUNDS sets another number than 100.
 */
#define _GNU_SOURCE
#include "timer.h"

#include <arpa/inet.h>
#include <sched.h>
#include <signal.h>
#include <sys/socket.h>
#include <sys/wait.h>
#include <unistd.h>

enum { HOSTS = 8, SIZES = 3, MOST = 9000, UNDER_WAY = 16, PORT = 7, IP_DISCOVER = 10, MOST_ROUNDS = 1000 };
enum { RATE, HOST, BOTH, KINDS };

static const int LENS[SIZES] = {2, 1472, MOST};
static const int TURNS[SIZES] = {2000, 2000, 500};

typedef struct {
    const char *name;
    pid_t process;
    clockid_t clock; /* its processor time */
    int socket;      /* connected to it, in its namespace */
    double measured[KINDS][SIZES][MOST_ROUNDS];
} Host;

static Host hosts[HOSTS];
static int host_count;
static uint8_t bytes[MOST], buffer[MOST + 1];

static void stop(const char *what)
{
    fprintf(stderr, "%s\n", what);
    for (int k = 0; k < host_count; k++)
        kill(hosts[k].process, SIGKILL);
    exit(1);
}

static double seconds(clockid_t clock)
{
    struct timespec now;
    clock_gettime(clock, &now);
    return (double)now.tv_sec + (double)now.tv_nsec / 1e9;
}

static struct sockaddr_in address(const char *text)
{
    struct sockaddr_in it = {.sin_family = AF_INET, .sin_port = htons(PORT), .sin_addr.s_addr = inet_addr(text)};
    return it;
}

/* A socket with space for all datagrams under way, which truncates long ones. */
static int new_socket(void)
{
    int it = socket(AF_INET, SOCK_DGRAM, 0), never = 0, space = 1 << 22;
    setsockopt(it, SOL_SOCKET, SO_RCVBUFFORCE, &space, sizeof space);
    setsockopt(it, IPPROTO_IP, IP_DISCOVER, &never, sizeof never);
    return it;
}

/* A socket in this process's namespace that sends to 10.0.0.1, or -1 while there is no route. */
static int client(void)
{
    struct timeval wait = {5, 0};
    struct sockaddr_in to = address("10.0.0.1");
    int it = new_socket();
    setsockopt(it, SOL_SOCKET, SO_RCVTIMEO, &wait, sizeof wait);
    if (connect(it, (struct sockaddr *)&to, sizeof to) == 0)
        return it;
    close(it);
    return -1;
}

/* Linux itself: a socket that echoes, in a namespace of its own, at the other end of a pair of devices. */
static void echo_by_linux(void)
{
    struct sockaddr_in any = address("0.0.0.0"), from;
    char other_end[200];
    snprintf(other_end, sizeof other_end,
             "nsenter -t %d -n ip link set far netns %d && ip addr add 10.0.0.1/24 dev far && ip link set far up",
             (int)getppid(), (int)getpid());
    if (system("ip link add near type veth peer name far && ip addr add 10.0.0.2/24 dev near && "
               "ip link set near up") != 0 ||
        unshare(CLONE_NEWNET) < 0 || system(other_end) != 0)
        _exit(1);
    int it = new_socket();
    if (bind(it, (struct sockaddr *)&any, sizeof any) < 0)
        _exit(1);
    for (;;) {
        socklen_t size = sizeof from;
        ssize_t len = recvfrom(it, buffer, sizeof buffer, 0, (struct sockaddr *)&from, &size);
        if (len >= 0)
            sendto(it, buffer, (size_t)len, 0, (struct sockaddr *)&from, size);
    }
}

/* Runs a host: a program, or without one Linux. */
static void run_host(const char *program)
{
    if (program == NULL)
        echo_by_linux();
    else if (freopen("/dev/null", "w", stdout) != NULL)
        execl(program, program, "1500", (char *)0);
    _exit(127);
}

/* Starts a host in a namespace that this process enters too, and waits until it echoes. */
static void start(const char *name, const char *program)
{
    Host *it = &hosts[host_count++];
    if (unshare(CLONE_NEWNET) < 0)
        stop("no namespace");
    it->name = name;
    it->process = fork();
    if (it->process == 0)
        run_host(program);
    clock_getcpuclockid(it->process, &it->clock);
    for (int tries = 0; tries < 100; tries++) {
        usleep(50000);
        it->socket = client();
        if (it->socket >= 0 && send(it->socket, bytes, 1, 0) == 1) {
            usleep(50000);
            if (recv(it->socket, buffer, sizeof buffer, MSG_DONTWAIT) == 1)
                return;
        }
        close(it->socket);
    }
    stop("a host doesn't echo");
}

static void await(const Host *it, int len)
{
    if (recv(it->socket, buffer, sizeof buffer, 0) != len || memcmp(buffer, bytes, (size_t)len) != 0) {
        fprintf(stderr, "bench: %s, %d bytes: ", it->name, len);
        stop("an echo didn't come, or came otherwise");
    }
}

/* Echoes of one length. */
static void measure(Host *it, int size, int round)
{
    double begun = seconds(CLOCK_MONOTONIC), host = seconds(it->clock), mine = seconds(CLOCK_PROCESS_CPUTIME_ID);
    int turns = TURNS[size], len = LENS[size];
    for (int k = 0; k < turns + UNDER_WAY; k++) {
        if (k < turns && send(it->socket, bytes, (size_t)len, 0) != len)
            stop("a datagram wasn't sent");
        if (k >= UNDER_WAY)
            await(it, len);
    }
    it->measured[RATE][size][round] = turns / (seconds(CLOCK_MONOTONIC) - begun);
    it->measured[HOST][size][round] = (seconds(it->clock) - host) * 1e9 / turns;
    mine = (seconds(CLOCK_PROCESS_CPUTIME_ID) - mine) * 1e9 / turns;
    it->measured[BOTH][size][round] = it->measured[HOST][size][round] + mine;
}

static int compare(const void *a, const void *b)
{
    double difference = *(const double *)a - *(const double *)b;
    return (difference > 0) - (difference < 0);
}

/* Sorts the measurements. */
static double median(double *values, int count)
{
    qsort(values, (size_t)count, sizeof *values, compare);
    return values[count / 2];
}

/* A table, and its ratios to the first host. */
static void print(const char *what, int kind, int rounds)
{
    for (int ratios = 0; ratios < 2; ratios++) {
        printf("\n| %s%s | 2 bytes | 1,472 | 9,000 |\n|---|---:|---:|---:|\n", what, ratios ? ", ratios" : "");
        for (int k = 0; k < host_count; k++) {
            printf("| %s |", hosts[k].name);
            for (int size = 0; size < SIZES; size++) {
                double value = median(hosts[k].measured[kind][size], rounds);
                double first = ratios ? median(hosts[0].measured[kind][size], rounds) : 1;
                printf(" %.*f |", ratios ? 2 : 0, value / first);
            }
            printf("\n");
        }
    }
}

int main(int argc, char **argv)
{
    int rounds = getenv("ROUNDS") ? atoi(getenv("ROUNDS")) : 100;
    if (rounds < 1 || rounds > MOST_ROUNDS)
        stop("ROUNDS is 1 to 1000");
    fill_bytes(bytes, MOST);
    for (int k = 1; k < argc && host_count < HOSTS - 1; k++) {
        char *program = strchr(argv[k], '=');
        if (program == NULL)
            stop("usage: bench NAME=PROGRAM..");
        *program = 0;
        start(argv[k], program + 1);
    }
    start("Linux", NULL);
    for (int round = 0; round < rounds; round++)
        for (int size = 0; size < SIZES; size++)
            for (int k = 0; k < host_count; k++)
                measure(&hosts[k], size, round);
    printf("times: medians of %d rounds\n", rounds);
    print("echoes a second", RATE, rounds);
    print("processor time of the host, ns an echo", HOST, rounds);
    print("of the host and its peer, ns an echo", BOTH, rounds);
    for (int k = 0; k < host_count; k++) {
        kill(hosts[k].process, SIGKILL);
        waitpid(hosts[k].process, NULL, 0);
    }
    return 0;
}
