/* A first answer in C: adds document 01's first sample room to a store, asks it, packs it, and checks and asks the packed file. */
#include <inttypes.h>
#include <stdio.h>
#include <stdlib.h>

#include "rooms.h"

#define CAPACITY 32

/* A room of depth 3 as an outline: a mask with two children, and a leaf of one voxel each. */
static const uint8_t outline[] = {
    0x11, 0, 0, 0, 0x17, 3,  /* front byte, length of the file, depth */
    0x03,                    /* the root's mask: children 0 and 1 */
    0, 0, 0, 0, 0, 0, 0, 1,  /* voxel (0, 0, 0) of the first leaf */
    0, 0, 0, 0, 0, 0, 0, 8,  /* voxel (3, 0, 0) of the second, which is the room's (7, 0, 0) */
};

/* All memory is lent: a store, scratch for packing and for checking, room for the packed file. */
static uint32_t store[ROOMS_STORE_WORDS(CAPACITY)];
static uint32_t pack_scratch[ROOMS_PACK_SCRATCH_WORDS(CAPACITY)];
static uint8_t packed[ROOMS_PACKED_MAX_BYTES(CAPACITY)];
static uint8_t check_scratch[sizeof packed];

/* Ends the program where a call that must be accepted is not. */
static void must(uint32_t number)
{
    if (number != ROOMS_OK) {
        fprintf(stderr, "refused: %" PRIu32 "\n", number);
        exit(1);
    }
}

int main(void)
{
    uint32_t scene, solid, kept, length, depth, records, height, blocked, x, y, z;
    uint32_t numbers[ROOMS_OPENED_NUMBERS];
    uint64_t count, entered;

    must(rooms_new(store, ROOMS_STORE_WORDS(CAPACITY), CAPACITY));
    must(rooms_add(store, ROOMS_STORE_WORDS(CAPACITY), outline, sizeof outline, &scene));
    printf("scene %" PRIu32 "\n", scene);

    must(rooms_voxel(store, ROOMS_STORE_WORDS(CAPACITY), scene, 7, 0, 0, &solid, &height));
    printf("voxel 7 0 0: %s\n", solid ? "solid" : "empty");
    must(rooms_voxel(store, ROOMS_STORE_WORDS(CAPACITY), scene, 0, 5, 0, &solid, &height));
    printf("voxel 0 5 0: %s, height %" PRIu32 "\n", solid ? "solid" : "empty", height);
    must(rooms_sight(store, ROOMS_STORE_WORDS(CAPACITY), scene, 0, 0, 0, 7, 0, 0, &blocked, &x, &y, &z));
    if (blocked) {
        printf("sight line 0 0 0 to 7 0 0: blocked at %" PRIu32 " %" PRIu32 " %" PRIu32 "\n", x, y, z);
    } else {
        printf("sight line 0 0 0 to 7 0 0: clear\n");
    }
    must(rooms_cell(store, ROOMS_STORE_WORDS(CAPACITY), scene, 2, 0, 1, 0, &solid));
    printf("cell of height 2 at 0 1 0: %s\n", solid ? "non-empty" : "empty");
    must(rooms_box(store, ROOMS_STORE_WORDS(CAPACITY), scene, 0, 0, 0, 8, 8, 8, &count));
    printf("solid in the whole room: %" PRIu64 "\n", count);
    must(rooms_any(store, ROOMS_STORE_WORDS(CAPACITY), scene, 1, 0, 0, 7, 8, 8, &solid, &entered));
    printf("box 1 0 0 to 7 8 8: %s, cells entered %" PRIu64 "\n", solid ? "something in the way" : "free", entered);
    must(rooms_kept(store, ROOMS_STORE_WORDS(CAPACITY), 2, &kept));
    printf("leaves kept: %" PRIu32 "\n", kept);

    must(rooms_pack(store, ROOMS_STORE_WORDS(CAPACITY), scene, pack_scratch, ROOMS_PACK_SCRATCH_WORDS(CAPACITY), packed,
                    sizeof packed, &length));
    printf("packed %" PRIu32 ":", length);
    for (uint32_t i = 0; i < length; i++) {
        printf(" %02x", packed[i]);
    }
    printf("\n");

    must(rooms_check(packed, length, check_scratch, sizeof check_scratch, &depth));
    printf("check: proper, depth %" PRIu32 "\n", depth);
    must(rooms_open(packed, length, numbers, ROOMS_OPENED_NUMBERS));
    must(rooms_ask(packed, length, numbers, ROOMS_OPENED_NUMBERS, 4, 0, 0, &solid, &records, &height));
    printf("packed voxel 4 0 0: %s, records %" PRIu32 "\n", solid ? "solid" : "empty", records);
    must(rooms_detail(depth, ROOMS_WIDEST_EDGE, 7.5, 0.0, &height));
    printf("widest edge 7.5: height %" PRIu32 "\n", height);

    printf("voxel 8 0 0: refused by %" PRIu32 "\n",
           rooms_voxel(store, ROOMS_STORE_WORDS(CAPACITY), scene, 8, 0, 0, &solid, &height));
    return 0;
}
