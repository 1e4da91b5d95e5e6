// The heap of the module, as a program of Rattle asks for it: blocks over a memory that grows.
//
// A block has a head of 16 bytes with its class. Classes are powers of two from 16 on, each with a list of free
// blocks, so that nothing is split or joined. What the memory refuses is refused.
typedef unsigned char byte;
typedef unsigned long size;
// whether there is a block, and where; where there is none, any address of the alignment asked for
typedef struct {
  size given;
  byte *block;
} tried;

enum { HEAD = 16, PAGE = 65536, SMALLEST = 4, CLASSES = 64 };
static const size MOST = 1ul << 34;

extern byte __heap_base;
static byte *unused, *end;
static byte *free_blocks[CLASSES];

// Lets the memory grow by so many bytes, at least. (In the 32-bit form a refusal has its low half alone.)
static int grow(size bytes) {
  size pages = (bytes + PAGE - 1) / PAGE;
  if ((unsigned)__builtin_wasm_memory_grow(0, pages) == ~0u) return 0;
  end += pages * PAGE;
  return 1;
}

static byte *take_unused(size bytes) {
  if (!unused) {
    unused = (byte *)(((size)&__heap_base + HEAD - 1) & -(size)HEAD);
    end = (byte *)(__builtin_wasm_memory_size(0) * PAGE);
  }
  size left = end - unused;
  if (left < bytes && !grow(bytes - left)) return 0;
  byte *taken = unused;
  unused += bytes;
  return taken;
}

static size class_of(size bytes) {
  return bytes <= 1ul << SMALLEST ? SMALLEST : CLASSES - __builtin_clzl(bytes - 1);
}

static size *head_of(byte *block) {
  return (size *)(block - HEAD);
}

static byte *take(size bytes) {
  if (bytes > MOST) return 0;
  size class = class_of(bytes);
  byte *block = free_blocks[class];
  if (block) {
    free_blocks[class] = *(byte **)block;
    return block;
  }
  byte *taken = take_unused((1ul << class) + HEAD);
  if (!taken) return 0;
  *(size *)taken = class;
  return taken + HEAD;
}

tried rattle_alloc(size bytes, size alignment) {
  byte *block = alignment <= HEAD ? take(bytes) : 0;
  return (tried){block != 0, block ? block : (byte *)alignment};
}

void rattle_dealloc(byte *block) {
  size class = *head_of(block);
  *(byte **)block = free_blocks[class];
  free_blocks[class] = block;
}

tried rattle_realloc(byte *block, size kept, size bytes, size alignment) {
  size has = 1ul << *head_of(block);
  if (bytes <= has) return (tried){1, block};
  tried other = rattle_alloc(bytes, alignment);
  if (!other.given) return other;
  __builtin_memcpy(other.block, block, has);
  rattle_dealloc(block);
  return other;
}
