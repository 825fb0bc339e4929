/* The part of C's stdint.h that is used here: the kit has a compiler and no headers. With any other compiler its own headers serve. */
#ifndef KIT_STDINT_H
#define KIT_STDINT_H

typedef __UINT8_TYPE__ uint8_t;

#endif
