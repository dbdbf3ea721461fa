/* The packed file of a room in a store. */
#ifndef PACKING_H
#define PACKING_H

#include "file.h"
#include "room.h"

/* A packing: rooms_pack, or the headset's. */
typedef uint32_t pack_call(const uint32_t *store, size_t store_words, uint32_t scene, uint32_t *scratch, size_t scratch_words,
                           uint8_t *out, size_t out_bytes, uint32_t *length);

/* Packs; *memory is how many bytes of scratch and output that took. Says what failed; there is then nothing to free. */
int room_pack(const struct room *room, pack_call *pack, struct bytes *packed, size_t *memory);

#endif
