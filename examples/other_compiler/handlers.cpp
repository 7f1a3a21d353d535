// Handlers and specifications: the calls of the C++ ABI that are more than one call of the runtime.
#include "ehc.h"
#include "kit.h"

namespace {

// A forced unwind has no exception object, and the runtime keeps no handler of it. Compilers let a `catch (...)` take it, which has to throw it on, so which of
// the handlers that are active have one is kept here.
struct Forced {
  unsigned long depth;
  bool goes_on;
};
const unsigned most_forced = 64;
Forced forced[most_forced];
unsigned forced_count;
// How many handlers are active.
unsigned long depth;
// What the newest handler was entered for.
void* entered;

bool newest_is_forced() {
  return forced_count > 0 && forced[forced_count - 1].depth == depth;
}

// Gives an object back, also where its destructor throws.
struct Given {
  void* object;
  ~Given() { __cxa_free_exception(object); }
};

// Leaves a handler, whatever comes out of it.
struct Leaving {
  ~Leaving() noexcept(false) { __cxa_end_catch(); }
};

}

extern "C" {

void* __cxa_allocate_exception(unsigned long size) noexcept {
  if (size > slot_size) std::terminate();
  return ehc_allocate();
}

void* __cxa_get_exception_ptr(void* object) noexcept { return object; }

void* __cxa_begin_catch(void* object) noexcept {
  depth = depth + 1;
  if (object) {
    ehc_begin_catch(object);
  } else {
    if (forced_count == most_forced) std::terminate();
    forced[forced_count].depth = depth;
    forced[forced_count].goes_on = false;
    forced_count = forced_count + 1;
  }
  entered = object;
  return object;
}

void __cxa_end_catch() {
  bool was_forced = newest_is_forced();
  depth = depth - 1;
  if (was_forced) {
    forced_count = forced_count - 1;
    if (!forced[forced_count].goes_on) std::terminate();
    return;
  }
  Left left = ehc_end_catch();
  if (!left.object) return;
  Given given = {left.object};
  if (left.destructor) left.destructor(left.object);
}

void __cxa_rethrow() {
  if (newest_is_forced()) {
    forced[forced_count - 1].goes_on = true;
    _Unwind_Resume(0);
  }
  ehc_rethrow();
}

// g++ from 14 on and clang call these where an exception comes out of what must not throw: the handler is the one that was kept at the throw.
void __cxa_call_terminate(void* exception) noexcept {
  if (!exception) std::terminate();
  __cxa_begin_catch(exception);
  ehc_terminate_for(exception);
}

void __clang_call_terminate(void* exception) noexcept { __cxa_call_terminate(exception); }

}

namespace {

// Calls the unexpected handler. What it throws goes on where the list allows it, and otherwise std::bad_exception where that is listed.
__attribute__((noinline)) void translate(void* exception, Begun begun, long selector) {
  try {
    if (begun.handler) begun.handler();
    ehc_terminate_for(exception);
  } catch (...) {
    switch (ehc_unexpected_check(begun.table, selector, entered)) {
      case 0: throw;
      case 1: throw std::bad_exception();
    }
    ehc_terminate_for(exception);
  }
}

}

// The ABI hands on the exception alone. The second argument is what the landing pad, whose selector stood there, left in its register.
extern "C" void __cxa_call_unexpected(void* exception, long left_over) {
  // a pad that has a cleanup too comes here with a forced unwind, of which no list is asked
  if (!exception) std::terminate();
  Begun begun = ehc_unexpected_begin(exception);
  depth = depth + 1;
  // in a frame of its own, since compilers say of a function with a `catch (...)` no more that it has cleanups, and a forced unwind passes both over
  Leaving leaving;
  translate(exception, begun, selector_of(begun.table, left_over, exception));
}
