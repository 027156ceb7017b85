/* What woolyard.h needs of <stddef.h>, for x86-64 where no C headers are installed. */
#ifndef FREESTANDING_STDDEF_H
#define FREESTANDING_STDDEF_H

typedef unsigned long size_t;

#endif
