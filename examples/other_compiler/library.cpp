// What a program takes from a library without asking: <exception>, new and delete, objects of static storage duration, copying of memory.
#include "ehc.h"
#include "kit.h"

namespace std {

exception::~exception() noexcept { }
const char* exception::what() const noexcept { return "std::exception"; }
bad_exception::~bad_exception() noexcept { }
const char* bad_exception::what() const noexcept { return "std::bad_exception"; }
bad_alloc::~bad_alloc() noexcept { }
const char* bad_alloc::what() const noexcept { return "std::bad_alloc"; }

namespace {
// The runtime gives no old handler.
terminate_handler on_terminate;
unexpected_handler on_unexpected;
}

terminate_handler set_terminate(terminate_handler handler) noexcept {
  terminate_handler old = on_terminate;
  on_terminate = handler;
  ehc_set_terminate(handler);
  return old;
}

unexpected_handler set_unexpected(unexpected_handler handler) noexcept {
  unexpected_handler old = on_unexpected;
  on_unexpected = handler;
  ehc_set_unexpected(handler);
  return old;
}

void unexpected() {
  if (on_unexpected) on_unexpected();
  terminate();
}

}

typedef unsigned long size_type;

namespace {
char heap[1 << 20] __attribute__((aligned(16)));
size_type used;
}

// What is deleted is not used again.
void* operator new(size_type size) {
  size_type whole = (size + 15) & ~15UL;
  if (whole < size || whole > sizeof heap - used) throw std::bad_alloc();
  used += whole;
  return heap + used - whole;
}
void* operator new[](size_type size) { return operator new(size); }
void operator delete(void*) noexcept { }
void operator delete[](void*) noexcept { }
void operator delete(void*, size_type) noexcept { }
void operator delete[](void*, size_type) noexcept { }

extern "C" {

typedef void (*Initialiser)();
extern Initialiser __init_array_start[];
extern Initialiser __init_array_end[];

void ehc_initialise() {
  for (Initialiser* it = __init_array_start; it < __init_array_end; it++) (*it)();
}

// The run ends with main and destroys nothing behind it, as `exit` does in ehc's language.
int __cxa_atexit(void (*)(void*), void*, void*) { return 0; }
void* __dso_handle = 0;

void __cxa_pure_virtual() { std::terminate(); }
void __cxa_deleted_virtual() { std::terminate(); }

void* memcpy(void* to, const void* from, size_type count) {
  for (size_type i = 0; i < count; i++) static_cast<char*>(to)[i] = static_cast<const char*>(from)[i];
  return to;
}

void* memmove(void* to, const void* from, size_type count) {
  if (to < from) return memcpy(to, from, count);
  for (size_type i = count; i > 0; i--) static_cast<char*>(to)[i - 1] = static_cast<const char*>(from)[i - 1];
  return to;
}

void* memset(void* to, int byte, size_type count) {
  for (size_type i = 0; i < count; i++) static_cast<char*>(to)[i] = static_cast<char>(byte);
  return to;
}

}
