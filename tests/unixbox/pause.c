/* A program that makes no call but pause(2). It has no C library, which would at its start. */
#include <sys/syscall.h>

void _start(void) {
    for (;;)
        __asm__ volatile("syscall" : : "a"(SYS_pause) : "rcx", "r11", "memory");
}
