#ifndef KIT_STDIO_H
#define KIT_STDIO_H
#include <stddef.h>
typedef struct _IO_FILE FILE;
extern FILE *stdin, *stdout, *stderr;
FILE *fopen(const char *name, const char *mode);
int fclose(FILE *file);
size_t fread(void *bytes, size_t size, size_t count, FILE *from);
size_t fwrite(const void *bytes, size_t size, size_t count, FILE *to);
int fflush(FILE *file);
int printf(const char *format, ...);
int fprintf(FILE *file, const char *format, ...);
#endif
