// What the program `pascal` asks of a C library, over the functions of its host: the worker of the page, or a test.
//
// The host's functions answer a number that is not negative, or that of an error with a minus, by the numbers of Linux.
typedef unsigned char byte;
typedef long number;
typedef unsigned long size;

#define HOST(name) __attribute__((import_module("host"), import_name(name)))
HOST("word") number host_word(size at, byte *to, size room);                 // a word of the command; its length
HOST("variable") number host_variable(const char *name, byte *to, size room); // of the environment; its length
HOST("open") int host_open(const char *name, int flags);                     // the number of the open file
HOST("close") int host_close(int file);
HOST("read") number host_read(int file, byte *to, size room);                // bytes read; the host may let it wait
HOST("write") number host_write(int file, const byte *from, size length);    // bytes written
HOST("identity") number host_identity(const char *name, int file);           // one for each file, by its name or open
HOST("rename") int host_rename(const char *name, const char *to);
HOST("remove") int host_remove(const char *name);

enum { IS_NO_LINK = 22, IS_PIPE = 29, LACKS_ROOM = 34 };
static int error;

static number told(number answer) {
  if (answer >= 0) return answer;
  error = (int)-answer;
  return -1;
}

int rattle_errno(void) { return error; }
void rattle_set_errno(int it) { error = it; }

// ---- the words of the command and the environment: -1 where there is none, -2 where the room is too small

number rattle_arg(size at, byte *to, size room) { return host_word(at, to, room); }
number rattle_env(const char *name, byte *to, size room) { return host_variable(name, to, room); }
number rattle_env_at(size at, byte *to, size room) { return -1; }

// ---- files

int open(const char *name, int flags, ...) { return (int)told(host_open(name, flags)); }
int close(int file) { return (int)told(host_close(file)); }
number read(int file, byte *to, size room) { return told(host_read(file, to, room)); }
number write(int file, const byte *from, size length) { return told(host_write(file, from, length)); }
number __write(int file, const byte *from, size length) { return write(file, from, length); }
int rename(const char *name, const char *to) { return (int)told(host_rename(name, to)); }
int unlink(const char *name) { return (int)told(host_remove(name)); }

// Nothing is given back to a file: each is as a pipe.
number lseek(int file, number to, int from) { return told(-IS_PIPE); }

// Files have no owners and no permissions.
int fchown(int file, unsigned owner, unsigned group) { return 0; }
int fchmod(int file, unsigned mode) { return 0; }

// What Linux tells of a file, as far as the program looks: its kind and which one it is.
typedef struct {
  unsigned mask, block;
  size attributes;
  unsigned links, owner, group;
  unsigned short mode, unused;
  size identity, length, blocks, mask_of_attributes;
  byte rest[192];
} status;
_Static_assert(sizeof(status) == 256, "as Linux has it");
enum { ALL_BASIC = 0x7ff, REGULAR = 0100644 };

int statx(int folder, const char *name, int flags, unsigned mask, status *to) {
  number identity = told(host_identity(name, folder));
  if (identity < 0) return -1;
  *to = (status){.mask = ALL_BASIC, .mode = REGULAR, .links = 1, .identity = (size)identity};
  return 0;
}

// There are no links and no folders: a name is whole as it stands.
number readlink(const char *name, byte *to, size room) { return told(-IS_NO_LINK); }

char *realpath(const char *name, char *to) {
  enum { LONGEST = 4096 };
  if (told(host_identity(name, -1)) < 0) return 0;
  for (int at = 0; at < LONGEST; at++) {
    to[at] = name[at];
    if (!name[at]) return to;
  }
  told(-LACKS_ROOM);
  return 0;
}

// ---- the process

// Bytes for the names of new files. Nobody else makes files here, so it is enough that they differ from call to call.
int getentropy(byte *to, size length) {
  static byte calls;
  calls++;
  for (size at = 0; at < length; at++) to[at] = calls;
  return 0;
}

number __sysv_signal(int signal, number how) { return 0; }
int __xpg_strerror_r(int error, char *to, size room) { return 22; }

// The module was made for a processor of x86-64-v2 and asks at its start whether this is one. By then it is
// WebAssembly.
const unsigned *__x86_get_cpuid_feature_leaf(unsigned leaf) {
  static const unsigned all[] = {~0u, ~0u, ~0u, ~0u, ~0u, ~0u, ~0u, ~0u};
  return all;
}
