#ifndef STDIO_H
#define STDIO_H

int printf(const char *format, ...);
int dprintf(int file, const char *format, ...);

#endif
