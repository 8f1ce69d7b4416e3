/* A library of which an allocation can be refused: see refusing.c. For one thread alone. */
#ifndef REFUSING_H
#define REFUSING_H

#include "../cbor_edn.h"

/* From now on each call is refused the allocation of this number, from 0; a negative one refuses none. */
void cbor_edn_refuse(long number);

/* How many allocations the last call made or was refused. */
long cbor_edn_allocations(void);

/* How many blocks the last call left, of those that it was given. */
long cbor_edn_blocks_left(void);

#endif
