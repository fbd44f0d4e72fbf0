/* A stack receives what it sends to its own address. It prints "2 bytes, from port 7":
   cc -std=c99 -I PREFIX/include first.c PREFIX/lib/libbsdudp.a && ./a.out */
#include <bsdudp.h>
#include <stdio.h>
int main(void)
{
    struct bsdudp_config config = {BSDUDP_IP(10, 0, 0, 1), BSDUDP_IP(10, 0, 0, 255), 64, 16, 1500, 1};
    struct bsdudp_addr any = {0, 7}, to = {config.addr, 7}, from;
    struct bsdudp stack = BSDUDP_NONE;
    char bytes[100];
    int len, fd = bsdudp_boot(&stack, &config) < 0 ? -1 : bsdudp_socket(&stack);
    if (fd < 0 || bsdudp_bind(&stack, (uint32_t)fd, &any) || bsdudp_sendto(&stack, (uint32_t)fd, &to, "hi", 2) < 0)
        return 1;
    len = bsdudp_recvfrom(&stack, (uint32_t)fd, bytes, sizeof bytes, &from);
    return len < 0 ? 1 : printf("%d bytes, from port %d\n", len, from.port) < 0;
}
