#ifndef STDIO_H
#define STDIO_H
#include <stddef.h>
#ifdef __cplusplus
extern "C" {
#endif
int printf(const char *format, ...);
int snprintf(char *text, size_t size, const char *format, ...);
int puts(const char *text);
typedef struct _IO_FILE FILE;
FILE *tmpfile(void);
size_t fread(void *to, size_t size, size_t n, FILE *file);
size_t fwrite(const void *from, size_t size, size_t n, FILE *file);
void rewind(FILE *file);
int fclose(FILE *file);
#ifdef __cplusplus
}
#endif
#endif
