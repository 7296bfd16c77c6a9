/* The clause file, block by block. */
#ifndef CLAUSES_H
#define CLAUSES_H

#include "book.h"

enum { BLOCK_ROOM = 512 };

/* k: the bits of a rank. */
size_t rank_bits(size_t symbols);

/* V: how many variables the file has. */
size_t variables_of(const book *book);

/* How many blocks the file has, its header included. */
size_t blocks_of(const book *book);

/* Lays a block that there is into out, which has room for BLOCK_ROOM bytes; returns its length. */
size_t lay_block(const book *book, size_t number, uint8_t *out);

#endif
