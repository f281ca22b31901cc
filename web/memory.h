// What a program in WebAssembly has of each host: memory, errno, and the words of its command line. The host
// of the page (web/host.c) and that of the debugger (ports/session_host.c) include it.
//
// Addresses are 64 bits wide here, and 32 in the module that is handed out (`--memory64-lowering`). So what
// JavaScript gives and gets is `unsigned`, which it has as a number.

typedef unsigned char Byte;
typedef unsigned long Size;

#define EXPORT(name) __attribute__((export_name(#name)))
#define PAGE 65536ul           // bytes by which memory grows
#define MOST_BYTES 0xffff0000ul // that 32 bits can address, less a page
#define MOST_WORDS 16          // of the command line

enum { NO_MEMORY = 12, NO_SPACE = 28, BAD_FILE = 9 }; // errno's numbers

// ---- Memory: blocks whose room is a power of two, with a list of free ones for each

typedef struct Block {
    Size level;         // its room is 2^level bytes
    struct Block *next; // in the list of free ones of its level
} Block;

extern Byte __heap_base; // the linker's: where the memory that nobody has begins

static Block *free_blocks[32];
static Size top;          // where the memory that was never given begins
static Size in_use;       // bytes of the blocks that the program has
static Size most = MOST_BYTES; // bytes that it may have

static Size level_of(Size bytes) {
    Size level = 4;
    while (((Size)1 << level) < bytes) level++;
    return level;
}

// Makes memory reach up to an address. Asks how large it is then: an answer of memory.grow is not relied on.
static _Bool reaches(Size end) {
    if (end > MOST_BYTES) return 0;
    Size pages = __builtin_wasm_memory_size(0);
    Size wanted = (end + PAGE - 1) / PAGE;
    if (wanted > pages) __builtin_wasm_memory_grow(0, wanted - pages);
    return __builtin_wasm_memory_size(0) >= wanted;
}

// A block with room for so many bytes, or none.
static Block *take(Size bytes) {
    if (bytes > MOST_BYTES / 2) return 0;
    Size level = level_of(bytes);
    Block *block = free_blocks[level];
    if (block) {
        free_blocks[level] = block->next;
        return block;
    }
    if (!top) top = ((Size)&__heap_base + 15) / 16 * 16;
    Size end = top + sizeof(Block) + ((Size)1 << level);
    if (!reaches(end)) return 0;
    block = (Block *)top;
    block->level = level;
    top = end;
    return block;
}

static void give_back(Block *block) {
    block->next = free_blocks[block->level];
    free_blocks[block->level] = block;
}

static Byte *room_of(Block *block) { return (Byte *)(block + 1); }
static Block *block_at(void *room) { return (Block *)room - 1; }
static Size bytes_of(Size level) { return sizeof(Block) + ((Size)1 << level); }

// ---- What the program calls

typedef struct {
    _Bool ok;
    Byte *room; // never 0
} Tried;

static Byte nothing[16]; // what is answered where there is no memory; nobody reads or writes there

Tried rattle_alloc(Size bytes, Size align) {
    Size level = level_of(bytes ? bytes : align);
    Block *block = bytes <= most && bytes_of(level) <= most - in_use ? take((Size)1 << level) : 0;
    if (!block) return (Tried){0, nothing};
    in_use += bytes_of(level);
    return (Tried){1, room_of(block)};
}

void rattle_dealloc(Byte *room) {
    Block *block = block_at(room);
    in_use -= bytes_of(block->level);
    give_back(block);
}

Tried rattle_realloc(Byte *room, Size kept, Size bytes, Size align) {
    if (level_of(bytes ? bytes : align) == block_at(room)->level) return (Tried){1, room};
    Tried made = rattle_alloc(bytes, align);
    if (!made.ok) return made;
    __builtin_memcpy(made.room, room, kept < bytes ? kept : bytes);
    rattle_dealloc(room);
    return made;
}

static int error;

int rattle_errno(void) { return error; }
void rattle_set_errno(int number) { error = number; }

typedef struct {
    Byte *bytes;
    Size count;
    Size room;
} Text;

static Text words[MOST_WORDS];
static Size word_count;

Size rattle_arg_count(void) { return word_count; }

// The word of this number: how many bytes it has, -1 past the last, -2 where the room is too small.
long rattle_arg(Size number, Byte *into, Size room) {
    if (number >= word_count) return -1;
    Text *word = &words[number];
    if (word->count > room) return -2;
    __builtin_memcpy(into, word->bytes, word->count);
    return (long)word->count;
}

// Gives a text room for more bytes. What it takes is none of the program's memory, and is not counted.
static _Bool has_room(Text *text, Size more) {
    Size wanted = text->count + more;
    if (text->bytes && wanted <= text->room) return 1;
    Block *block = take(wanted < PAGE ? PAGE : wanted);
    if (!block) return 0;
    __builtin_memcpy(room_of(block), text->bytes, text->count);
    if (text->bytes) give_back(block_at(text->bytes));
    text->bytes = room_of(block);
    text->room = (Size)1 << block->level;
    return 1;
}

// ---- What JavaScript calls

// Room for the next word of the command line, of so many bytes, which the caller fills. 0 where there is none.
EXPORT(host_word) unsigned host_word(unsigned bytes) {
    Text *word = &words[word_count];
    if (word_count == MOST_WORDS || !has_room(word, bytes)) return 0;
    word->count = bytes;
    word_count++;
    return (unsigned)(Size)word->bytes;
}

// How many bytes of memory the program may have at most. More are refused.
EXPORT(host_limit) void host_limit(unsigned bytes) { most = bytes < MOST_BYTES ? bytes : MOST_BYTES; }
