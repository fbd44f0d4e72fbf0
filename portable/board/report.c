#include "report.h"

#include "machine.h"

void report(struct bsdudp *stack)
{
    struct bsdudp_mbstat usage;
    uint32_t stack_used = machine_stack(), bit;
    char digits[] = "stack 00000 ";
    for (bit = 10; bit > 5; bit--, stack_used /= 10)
        digits[bit] = (char)('0' + stack_used % 10);
    machine_say(digits);
    bsdudp_mbstat(stack, &usage);
    if (usage.free_mbufs != usage.mbufs || usage.free_clusters != usage.clusters)
        machine_say("not ");
    machine_say("all free\n");
}
