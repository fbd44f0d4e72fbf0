/* An empty program: its size is subtracted from those of the other programs. */
#include "echo.h"

static void turn(void)
{
    gone += packet_count;
}

int main(void)
{
    measure_all();
    return 0;
}
