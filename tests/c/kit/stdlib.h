#ifndef KIT_STDLIB_H
#define KIT_STDLIB_H
#include <stddef.h>
_Noreturn void exit(int status);
unsigned long strtoul(const char *text, char **end, int base);
#endif
