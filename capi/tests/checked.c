/* Mistakes that a library built with BSDUDP_CHECK=1 stops at, each by the name that is this program's argument. */
#include "bsdudp.h"

#include <pthread.h>
#include <signal.h>
#include <stdio.h>
#include <string.h>
#include <unistd.h>

static const struct bsdudp_config config = {BSDUDP_IP(10, 0, 0, 1), BSDUDP_IP(10, 0, 0, 255), 64, 16, 1500, 1};
static struct bsdudp stack = BSDUDP_NONE;

static void never_booted(void) { bsdudp_tick(&stack); }

static void garbage(void)
{
    struct bsdudp other;
    memset(&other, 0x5a, sizeof other);
    bsdudp_boot(&other, &config);
}

static void copy(void)
{
    struct bsdudp other;
    bsdudp_boot(&stack, &config);
    other = stack;
    bsdudp_socket(&other);
}

static void ended(void)
{
    bsdudp_boot(&stack, &config);
    bsdudp_end(&stack);
    bsdudp_socket(&stack);
}

static void copy_of_ended(void)
{
    struct bsdudp other;
    bsdudp_boot(&stack, &config);
    other = stack;
    bsdudp_end(&stack);
    stack = other;
    bsdudp_socket(&stack);
}

static void changed(void)
{
    bsdudp_boot(&stack, &config);
    stack.block = NULL;
    bsdudp_end(&stack);
}

static void no_handle(void) { bsdudp_socket(NULL); }

static void tick(int number)
{
    (void)number;
    bsdudp_tick(&stack);
}

static void *send(void *bytes)
{
    const struct bsdudp_addr to = {config.addr, 7};
    int i;
    for (i = 0; i < 100000000; i++)
        bsdudp_sendto(&stack, 3, &to, bytes, 9000);
    return NULL;
}

static void in_signal_handler(void)
{
    static char bytes[9000];
    struct sigaction action;
    memset(&action, 0, sizeof action);
    action.sa_handler = tick;
    sigaction(SIGALRM, &action, NULL);
    bsdudp_boot(&stack, &config);
    bsdudp_socket(&stack);
    ualarm(10000, 1000);
    send(bytes);
}

static void two_threads(void)
{
    static char bytes[9000];
    pthread_t other;
    bsdudp_boot(&stack, &config);
    bsdudp_socket(&stack);
    pthread_create(&other, NULL, send, bytes);
    send(bytes);
}

/* No mistakes: an end in one thread and a boot in another, and a handle at the place of an old one. */
static void *boot_and_end(void *unused)
{
    struct bsdudp own = BSDUDP_NONE;
    int i;
    for (i = 0; i < 1000; i++) {
        memset(&own, 0, sizeof own);
        if (bsdudp_boot(&own, &config) < 0 || bsdudp_socket(&own) != 3 || bsdudp_end(&own) < 0)
            return &stack;
    }
    (void)unused;
    return NULL;
}

static void nothing(void)
{
    pthread_t other;
    void *failed, *also = NULL;
    pthread_create(&other, NULL, boot_and_end, NULL);
    failed = boot_and_end(NULL);
    pthread_join(other, &also);
    puts(failed == NULL && also == NULL ? "right" : "wrong");
}

static const struct {
    const char *name;
    void (*make)(void);
} mistakes[] = {{"never_booted", never_booted}, {"garbage", garbage}, {"copy", copy}, {"ended", ended},
                {"copy_of_ended", copy_of_ended}, {"changed", changed}, {"no_handle", no_handle},
                {"in_signal_handler", in_signal_handler}, {"two_threads", two_threads}, {"nothing", nothing}};

int main(int argc, char **argv)
{
    size_t i;
    for (i = 0; argc == 2 && i < sizeof mistakes / sizeof mistakes[0]; i++)
        if (strcmp(argv[1], mistakes[i].name) == 0)
            mistakes[i].make();
    return 0;
}
