// The heap of itv.wasm. In a native program the toolchain's rattle_alloc, rattle_realloc and rattle_dealloc stand on the C library's malloc, and
// a module for WebAssembly has no C library. Here they stand on the memory of the module alone.
//
// A block is a header of 16 bytes and the room after it, both at multiples of 16 bytes. The class of a block says how much room it has. A freed
// block goes into the list of its class, and only an allocation of the same class gets it again. Where the list is empty, a block is cut from the
// end of the memory in use. Nothing is ever merged or returned: the page runs each run in an instance of its own, whose memory ends with it.
//
// Rooms: 16, 32, 48 and 64 bytes, and then four for each power of two: 80, 96, 112, 128, 160, 192, 224, 256, 320 and so on up to 4 GiB. So a
// block has at most a quarter more room than was asked for, or 15 bytes more.

typedef unsigned long u64;

typedef struct Header {
    u64 class;
    struct Header *next; // the next freed block of the class, if this one is freed
} Header;

// What rattle_alloc and rattle_realloc answer: whether there was memory, and the block. The address is never null.
typedef struct {
    u64 is_there;
    void *room;
} Tried;

enum { PAGE = 65536, PAGES_AT_ONCE = 16, CLASSES = 108 };

static const u64 MOST = 1UL << 32; // bytes of one block; the whole memory has at most 3 GiB

extern unsigned char __heap_base; // lld: the first byte after the data and the stack
static Header *freed[CLASSES];
static u64 end; // the first byte that was never given out; 0 before the first block
static u64 nowhere[2];

// The class whose room is the least that holds so many bytes, from 1 to MOST.
static u64 class_of(u64 bytes) {
    if (bytes <= 64) {
        return (bytes - 1) / 16;
    }
    u64 power = 63 - __builtin_clzl(bytes - 1); // 2^power < bytes <= 2^(power + 1), so power is from 6 to 31
    u64 quarter = ((bytes - 1) >> (power - 2)) - 4;
    return 4 + (power - 6) * 4 + quarter;
}

static u64 room_of(u64 class) {
    return class < 4 ? (class + 1) * 16 : (5 + class % 4) << (class / 4 + 3);
}

// Whether the memory has all bytes up to an address, after it was made greater if need be.
static _Bool reaches(u64 address) {
    u64 have = __builtin_wasm_memory_size(0), want = (address + PAGE - 1) / PAGE;
    if (want <= have) {
        return 1;
    }
    u64 more = want - have;
    if (more >= PAGES_AT_ONCE || __builtin_wasm_memory_grow(0, PAGES_AT_ONCE) == -1UL) {
        __builtin_wasm_memory_grow(0, more);
    }
    return __builtin_wasm_memory_size(0) >= want;
}

// A block with room for so many bytes, or null.
static void *block_of(u64 bytes) {
    if (bytes > MOST) {
        return 0;
    }
    u64 class = class_of(bytes ? bytes : 1);
    Header *block = freed[class];
    if (block) {
        freed[class] = block->next;
        return block + 1;
    }
    if (end == 0) {
        end = ((u64)&__heap_base + 15) / 16 * 16;
    }
    u64 after = end + sizeof(Header) + room_of(class);
    if (after > MOST || !reaches(after)) {
        return 0;
    }
    block = (Header *)end;
    block->class = class;
    end = after;
    return block + 1;
}

static void free_block(void *room) {
    Header *block = (Header *)room - 1;
    block->next = freed[block->class];
    freed[block->class] = block;
}

static Tried tried(void *room) {
    return (Tried){room != 0, room ? room : nowhere};
}

// A new block. Every block has the greatest alignment that is asked for, 16.
Tried rattle_alloc(u64 bytes, u64 align) {
    return tried(block_of(bytes));
}

// A block of another size with the same first bytes. Where there is no memory, the old block is as it was.
Tried rattle_realloc(void *room, u64 kept, u64 bytes, u64 align) {
    u64 has = room_of(((Header *)room - 1)->class);
    if (bytes <= has) {
        return tried(room);
    }
    void *fresh = block_of(bytes);
    if (fresh) {
        __builtin_memcpy(fresh, room, kept < has ? kept : has);
        free_block(room);
    }
    return tried(fresh);
}

void rattle_dealloc(void *room) {
    free_block(room);
}

// For the page: room for so many bytes at a multiple of 16, or 0.
void *itv_take(u64 bytes) {
    return block_of(bytes);
}

// For the page: gives room back that itv_take gave.
void itv_give(void *room) {
    free_block(room);
}
