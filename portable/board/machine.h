/* The functions of the board for the programs in this folder. */
#include <stdint.h>

/* Returns whether a byte arrived at the serial port, and stores it. */
int machine_came(void);
uint8_t machine_get(void);

/* Writes a byte to the serial port. */
void machine_put(uint8_t byte);

/* Returns whether half a second passed since the last call. */
int machine_ticked(void);

/* Sleeps until an interrupt with this number arrives, or half a second has passed since the last call. Interrupts stay
   masked and have no handler: they end the sleep, and `heard` clears them at their source. Look for work afterwards. */
void machine_sleep(uint32_t interrupt, void (*heard)(void));

/* Prints text on the console. */
void machine_say(const char *text);

/* Opens a file of QEMU's computer, with a mode of semihosting: 0 reads, 4 writes. Returns its number. */
uint32_t machine_open(const char *path, uint32_t mode);

/* Reads at most `len` bytes, and returns their number: 0 at the end of the file. */
uint32_t machine_read(uint32_t file, void *bytes, uint32_t len);
void machine_write(uint32_t file, const void *bytes, uint32_t len);

/* Returns another number at each call. */
uint32_t machine_random(void);

/* Returns how many bytes of stack were used since the start. */
uint32_t machine_stack(void);

/* Ends the program. */
void machine_end(void);

/* Starts to count the clock's cycles, after which it no longer counts half seconds; and returns their number, up to 2
   to the 24. With QEMU's `-icount shift=0` an instruction takes 1 ns, and a cycle 40 ns. */
void machine_watch(void);
uint32_t machine_watched(void);
enum { MACHINE_INSTRUCTIONS = 40 };
