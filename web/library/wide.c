// Arithmetic of 128 bits that WebAssembly lacks and the code generator calls.
typedef long half;
typedef unsigned long word;
typedef __int128 wide;
typedef union {
  wide all;
  struct {
    word low, high;
  } in;
} parts;

wide __multi3(wide x, wide y) {
  parts a = {.all = x}, b = {.all = y}, made;
  word low = (unsigned)a.in.low, high = a.in.low >> 32, other_low = (unsigned)b.in.low, other_high = b.in.low >> 32;
  word first = low * other_low;
  word second = high * other_low + (first >> 32);
  word third = low * other_high + (unsigned)second;
  made.in.low = third << 32 | (unsigned)first;
  made.in.high = high * other_high + (second >> 32) + (third >> 32) + a.in.high * b.in.low + a.in.low * b.in.high;
  return made.all;
}

wide __ashlti3(wide x, int places) {
  parts a = {.all = x}, made = a;
  if (places & 64) {
    made.in.high = a.in.low << (places & 63);
    made.in.low = 0;
  } else if (places) {
    made.in.low = a.in.low << places;
    made.in.high = a.in.high << places | a.in.low >> (64 - places);
  }
  return made.all;
}

// What both shifts to the right share: the low half, where the high half is filled up by `fill`.
static wide shifted_right(parts a, int places, word high, word fill) {
  parts made = a;
  if (places & 64) {
    made.in.low = high;
    made.in.high = fill;
  } else if (places) {
    made.in.low = a.in.low >> places | a.in.high << (64 - places);
    made.in.high = high;
  }
  return made.all;
}

wide __lshrti3(wide x, int places) {
  parts a = {.all = x};
  return shifted_right(a, places, a.in.high >> (places & 63), 0);
}

wide __ashrti3(wide x, int places) {
  parts a = {.all = x};
  return shifted_right(a, places, (half)a.in.high >> (places & 63), (half)a.in.high >> 63);
}
