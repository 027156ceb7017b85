/* What woolyard.h needs of <stdint.h>, for x86-64 where no C headers are installed. */
#ifndef FREESTANDING_STDINT_H
#define FREESTANDING_STDINT_H

typedef unsigned char uint8_t;
typedef unsigned long uint64_t;

#endif
