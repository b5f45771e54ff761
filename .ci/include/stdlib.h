#ifndef STDLIB_H
#define STDLIB_H
#include <stddef.h>
#ifdef __cplusplus
extern "C" {
#endif
void *malloc(size_t size);
void free(void *at);
void exit(int status) __attribute__((noreturn));
int atoi(const char *text);
#ifdef __cplusplus
}
#endif
#endif
