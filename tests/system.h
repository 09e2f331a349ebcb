/* system.h: the few calls of the C library that the test programs use, declared here, so that a program for x86-64 Linux
 * compiles on a machine of another kind, which has no headers for it. */
#ifndef SYSTEM_H
#define SYSTEM_H

#include <stddef.h>
#include <stdint.h>

extern long read(int file, void *buffer, size_t length);
extern long write(int file, const void *buffer, size_t length);
extern int open(const char *path, int flags, ...);
extern int close(int file);
extern void *mmap(void *address, size_t length, int protection, int flags, int file, long offset);
extern int mprotect(void *address, size_t length, int protection);
extern void (*signal(int number, void (*handler)(int)))(int);
extern void exit(int status) __attribute__((noreturn));
extern void *memcpy(void *to, const void *from, size_t length);
extern void *memset(void *to, int value, size_t length);
extern int memcmp(const void *one, const void *other, size_t length);
extern size_t strlen(const char *text);
extern int printf(const char *format, ...) __attribute__((format(printf, 1, 2)));

#define READ_ONLY 0    /* open */
#define NO_ACCESS 0    /* mprotect */
#define READ_WRITE 3   /* mmap */
#define OWN_MEMORY 34  /* mmap: private, of no file */
#define BAD_ADDRESS 11 /* signal */
#define PAGE 4096

/* Ends the program with a sentence on standard error. */
static inline void __attribute__((noreturn)) die(const char *why)
{
    long told = write(2, why, strlen(why));
    told += write(2, "\n", 1);
    exit(told < 0 ? 3 : 2);
}

#endif
