// What the engine's module wants beside its own code, where there is no C library: a heap, the functions of memory, and arithmetic of 128 bits.
//
// The heap keeps what was freed in lists by size, four sizes to each doubling, and takes fresh memory from the end. It gives nothing back to
// the page, which makes a new instance of the module for each question. All of it is compiled for wasm64; `lower.py` makes 32-bit memory of that.
typedef unsigned char u8;
typedef unsigned long long u64;
typedef unsigned __int128 u128;
typedef __int128 i128;

// What an allocation answers: whether there was memory, and where it is.
typedef struct {
    u64 ok;
    void *at;
} Tried;

// A piece that is free lies in the list of its size.
typedef struct Free {
    struct Free *next;
} Free;

// In front of each piece stand its size's place in the lists, and its bytes.
typedef struct {
    u64 list;
    u64 bytes;
} Head;

enum { PAGE = 65536, LEAST_PAGES = 16, LEAST = 32 };

// Past this address there is no memory: so a page is told of it, and the browser's tab lives on.
static const u64 LIMIT = 256ull << 20;

extern u8 __heap_base[];
static u64 top, end;
static Free *lists[128];
static u8 nothing[16];

// The list of pieces that are large enough for so many bytes, of which there are 32 or more.
static unsigned list_for(u64 bytes)
{
    unsigned power = 63 - __builtin_clzll(bytes - 1);
    return (power << 2 | (unsigned)((bytes - 1) >> (power - 2) & 3)) - 16;
}

static u64 bytes_in(unsigned list)
{
    list += 16;
    return ((u64)(list & 3) + 5) << ((list >> 2) - 2);
}

// Fresh memory from the end, or none.
static Head *extend(u64 bytes)
{
    if (!top) {
        top = ((u64)__heap_base + 15) & ~15ull;
        end = (u64)__builtin_wasm_memory_size(0) * PAGE;
    }
    if (top + bytes > LIMIT)
        return 0;
    if (top + bytes > end) {
        u64 pages = (top + bytes - end + PAGE - 1) / PAGE;
        if (pages < LEAST_PAGES)
            pages = LEAST_PAGES;
        if (__builtin_wasm_memory_grow(0, pages) == (unsigned long)-1)
            return 0;
        end += pages * PAGE;
    }
    Head *head = (Head *)top;
    top += bytes;
    return head;
}

// For the page, which puts templates and data there.
void *page_alloc(u64 bytes)
{
    if (bytes > LIMIT)
        return 0;
    u64 whole = bytes + sizeof(Head);
    unsigned list = list_for(whole < LEAST ? LEAST : whole);
    Free *found = lists[list];
    if (found) {
        lists[list] = found->next;
        return found;
    }
    u64 room = (bytes_in(list) + 15) & ~15ull;
    Head *head = extend(room);
    if (!head)
        return 0;
    *head = (Head){list, room - sizeof(Head)};
    return head + 1;
}

Tried rattle_alloc(u64 bytes, u64 align)
{
    void *at = page_alloc(bytes);
    return (Tried){at != 0, at ? at : nothing};
}

void rattle_dealloc(void *at)
{
    Head *head = (Head *)at - 1;
    Free *piece = at;
    piece->next = lists[head->list];
    lists[head->list] = piece;
}

Tried rattle_realloc(void *at, u64 kept, u64 bytes, u64 align)
{
    u64 room = ((Head *)at - 1)->bytes;
    if (bytes <= room && bytes >= room / 4)
        return (Tried){1, at};
    void *moved = page_alloc(bytes);
    if (!moved)
        return (Tried){0, nothing};
    __builtin_memcpy(moved, at, kept < bytes ? kept : bytes);
    rattle_dealloc(at);
    return (Tried){1, moved};
}

// What stands in place of each function that a module leaves out (`cut.py`): the call ends there, and the page is told why.
static int lacks_part;

_Noreturn void page_part_is_left_out(void)
{
    lacks_part = 1;
    __builtin_trap();
}

int page_lacks_part(void)
{
    return lacks_part;
}

void *memcpy(void *to, const void *from, u64 bytes)
{
    return __builtin_memcpy(to, from, bytes);
}

void *memmove(void *to, const void *from, u64 bytes)
{
    return __builtin_memmove(to, from, bytes);
}

void *memset(void *to, int byte, u64 bytes)
{
    return __builtin_memset(to, byte, bytes);
}

int memcmp(const void *left, const void *right, u64 bytes)
{
    const u8 *a = left, *b = right;
    for (u64 at = 0; at < bytes; at++)
        if (a[at] != b[at])
            return a[at] < b[at] ? -1 : 1;
    return 0;
}

int bcmp(const void *left, const void *right, u64 bytes)
{
    return memcmp(left, right, bytes);
}

// What a compiler's own library has elsewhere: products, quotients and shifts of 128 bits.
typedef union {
    u128 whole;
    struct {
        u64 low, high;
    } half;
} Halves;

i128 __multi3(i128 left, i128 right)
{
    u64 a = (u64)left, b = (u64)right, mask = 0xffffffff;
    u64 low = (a & mask) * (b & mask), first = (a >> 32) * (b & mask), second = (a & mask) * (b >> 32);
    u64 middle = (low >> 32) + (first & mask) + (second & mask);
    Halves product = {.half = {
        (low & mask) | middle << 32,
        (a >> 32) * (b >> 32) + (first >> 32) + (second >> 32) + (middle >> 32),
    }};
    product.half.high += a * (u64)((u128)right >> 64) + b * (u64)((u128)left >> 64);
    return (i128)product.whole;
}

static u128 divide(u128 value, u128 by, u128 *rest)
{
    if (!((u64)(value >> 64) | (u64)(by >> 64))) {
        *rest = (u64)value % (u64)by;
        return (u64)value / (u64)by;
    }
    u128 quotient = 0, left = 0;
    for (int bit = 0; bit < 128; bit++) {
        int carry = (int)(left >> 127);
        left = left << 1 | value >> 127;
        value <<= 1;
        quotient <<= 1;
        if (carry || left >= by) {
            left -= by;
            quotient |= 1;
        }
    }
    *rest = left;
    return quotient;
}

static u128 size_of(i128 value)
{
    return value < 0 ? -(u128)value : (u128)value;
}

u128 __udivti3(u128 value, u128 by)
{
    u128 rest;
    return divide(value, by, &rest);
}

u128 __umodti3(u128 value, u128 by)
{
    u128 rest;
    divide(value, by, &rest);
    return rest;
}

i128 __divti3(i128 value, i128 by)
{
    u128 rest, quotient = divide(size_of(value), size_of(by), &rest);
    return (i128)((value < 0) != (by < 0) ? -quotient : quotient);
}

i128 __modti3(i128 value, i128 by)
{
    u128 rest;
    divide(size_of(value), size_of(by), &rest);
    return (i128)(value < 0 ? -rest : rest);
}

u128 __ashlti3(u128 value, int by)
{
    Halves given = {value};
    if (by == 0)
        return value;
    if (by >= 64)
        return (Halves){.half = {0, given.half.low << (by - 64)}}.whole;
    return (Halves){.half = {given.half.low << by, given.half.high << by | given.half.low >> (64 - by)}}.whole;
}

u128 __lshrti3(u128 value, int by)
{
    Halves given = {value};
    if (by == 0)
        return value;
    if (by >= 64)
        return (Halves){.half = {given.half.high >> (by - 64), 0}}.whole;
    return (Halves){.half = {given.half.low >> by | given.half.high << (64 - by), given.half.high >> by}}.whole;
}
