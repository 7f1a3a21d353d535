// Which list of an exception table stopped an exception.
//
// The runtime hands the selector of the list to the landing pad, and the ABI's __cxa_call_unexpected gets the exception alone: there it stands in a header that
// the runtime here does not show. Where a compiler puts functions with specifications into one, a table has several lists.
#include "ehc.h"
#include "kit.h"

namespace {

const unsigned char left_out = 0xff;
const unsigned char uleb128 = 0x01;

struct Reader {
  const unsigned char* at;

  int byte() { return *at++; }

  // the bits of one LEB128 number, how many they are, and its last byte
  struct Number { long value; int bits; int last; };

  Number number() {
    Number read = {0, 0, 0};
    do {
      read.last = byte();
      read.value |= (long)(read.last & 0x7f) << read.bits;
      read.bits += 7;
    } while (read.last & 0x80);
    return read;
  }

  long unsigned_number() { return number().value; }

  long signed_number() {
    Number read = number();
    return read.last & 0x40 ? read.value | -(1L << read.bits) : read.value;
  }

  // one of a call site's start, length and landing pad, which are ULEB128 or have four bytes
  void pass(int encoding) {
    if (encoding == uleb128) unsigned_number();
    else at += 4;
  }
};

// Of the lists that may have stopped an exception the first one, and whether one of them has the selector that is looked for.
struct Search {
  const unsigned char* table;
  void* exception;
  long wanted;
  long first;
  bool has_wanted;

  bool stops(long filter) { return filter < 0 && ehc_unexpected_check(table, filter, exception) != 0; }

  // of one chain only the first list that does not allow the exception may have stopped it
  void follow(const unsigned char* record) {
    for (;;) {
      Reader reader = {record};
      long filter = reader.signed_number();
      if (stops(filter)) {
        if (!first) first = filter;
        if (filter == wanted) has_wanted = true;
        return;
      }
      const unsigned char* displaced = reader.at;
      long displacement = reader.signed_number();
      if (displacement == 0) return;
      record = displaced + displacement;
    }
  }

  void look() {
    Reader reader = {table};
    if (reader.byte() != left_out) std::terminate();  // landing pads that count from elsewhere: g++ and clang never write them
    if (reader.byte() != left_out) reader.unsigned_number();
    int encoding = reader.byte();
    long length = reader.unsigned_number();
    const unsigned char* actions = reader.at + length;
    while (reader.at < actions) {
      for (int field = 0; field < 3; field++) reader.pass(encoding);
      long action = reader.unsigned_number();
      if (action) follow(actions + action - 1);
    }
  }
};

}

// Of one list the answer is exact. Of several it is the one whose selector the landing pad left in its register, or the first.
long selector_of(const unsigned char* table, long left_over, void* exception) noexcept {
  Search search = {table, exception, (int)left_over, 0, false};
  search.look();
  return search.has_wanted ? search.wanted : search.first;
}
