/* The heap that Rattle's crate `libc` declares, for WebAssembly, where the kit has none: lists of free blocks by size over
 * a memory that grows; and what LLVM calls on integers of 128 bits. None of it is proved: `agree.py` tests it. */
typedef unsigned long u64;
typedef unsigned __int128 u128;
typedef struct Block { /* stands in front of each block */
    u64 class;
    struct Block *next;
} Block;
typedef struct Tried {
    u64 is_made;
    void *place;
} Tried;

enum { PAGE = 65536 };
static const u64 LARGEST = 1ul << 32;
extern unsigned char __heap_base;
static u64 top, limit;
static Block *freed[256];

/* Sizes are 16, 32, 48, 64, and from there on four to each power of two. */
static u64 class_of(u64 size) {
    if (size <= 64)
        return size <= 16 ? 1 : (size + 15) / 16;
    u64 power = 63 - (u64)__builtin_clzl(size - 1);
    return 5 + (power - 6) * 4 + (((size - 1) >> (power - 2)) & 3);
}

static u64 size_of(u64 class) {
    u64 power = (class - 5) / 4 + 6;
    return class <= 4 ? class * 16 : (1ul << power) + (((class - 5) % 4 + 1) << (power - 2));
}

/* Moves the top, and grows the memory if there is too little. (What `memory.grow` answers is lost where the memory is
 * made one of 32 bits.) Returns whether there is enough. */
static int reach(u64 end) {
    if (end > limit) {
        u64 pages = (end - limit + PAGE - 1) / PAGE;
        __builtin_wasm_memory_grow(0, pages < 16 ? 16 : pages);
        limit = __builtin_wasm_memory_size(0) * PAGE;
    }
    top = end > limit ? top : end;
    return end <= limit;
}

void *web_allocate(u64 size) {
    u64 class = class_of(size);
    Block *block = size > LARGEST ? 0 : freed[class];
    if (block) {
        freed[class] = block->next;
        return block + 1;
    }
    if (!top)
        top = ((u64)&__heap_base + 15) & ~15ul, limit = __builtin_wasm_memory_size(0) * PAGE;
    block = (Block *)top;
    if (size > LARGEST || !reach(top + sizeof *block + size_of(class)))
        return 0;
    block->class = class;
    return block + 1;
}

static int is_last(Block *block) { return (u64)(block + 1) + size_of(block->class) == top; }

void rattle_dealloc(void *place) {
    Block *block = (Block *)place - 1;
    if (is_last(block)) {
        top = (u64)block;
        return;
    }
    block->next = freed[block->class];
    freed[block->class] = block;
}

Tried rattle_alloc(u64 size, u64 align) {
    void *place = web_allocate(size);
    return (Tried){place != 0, place};
}

Tried rattle_realloc(void *place, u64 kept, u64 size, u64 align) {
    Block *block = (Block *)place - 1;
    u64 held = size_of(block->class);
    if (size <= held && size * 2 >= held)
        return (Tried){1, place};
    if (size > held && size <= LARGEST && is_last(block) && reach((u64)place + size_of(class_of(size)))) {
        block->class = class_of(size);
        return (Tried){1, place};
    }
    void *other = web_allocate(size);
    if (!other)
        return (Tried){size <= held, place};
    __builtin_memcpy(other, place, kept < size ? kept : size);
    rattle_dealloc(place);
    return (Tried){1, other};
}

static u128 join(u64 high, u64 low) { return (u128)high << 64 | low; }

u128 __multi3(u128 x, u128 y) {
    u64 a = (u64)x, b = (u64)y, half = 0xffffffff, low = (a & half) * (b & half), middle = (a >> 32) * (b & half) + (low >> 32);
    u64 other = (a & half) * (b >> 32) + (middle & half), high = (a >> 32) * (b >> 32) + (middle >> 32) + (other >> 32);
    return join(high + (u64)(x >> 64) * b + a * (u64)(y >> 64), other << 32 | (low & half));
}

u128 __ashlti3(u128 x, int by) {
    u64 high = (u64)(x >> 64), low = (u64)x;
    return by & 64 ? join(low << (by & 63), 0) : by ? join(high << by | low >> (64 - by), low << by) : x;
}

u128 __lshrti3(u128 x, int by) {
    u64 high = (u64)(x >> 64), low = (u64)x;
    return by & 64 ? join(0, high >> (by & 63)) : by ? join(high >> by, high << (64 - by) | low >> by) : x;
}
