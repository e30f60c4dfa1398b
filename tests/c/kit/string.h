#ifndef KIT_STRING_H
#define KIT_STRING_H
#include <stddef.h>
int memcmp(const void *one, const void *other, size_t length);
void *memcpy(void *to, const void *from, size_t length);
void *memmove(void *to, const void *from, size_t length);
void *memset(void *bytes, int value, size_t length);
size_t strlen(const char *text);
#endif
