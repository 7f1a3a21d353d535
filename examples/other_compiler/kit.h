// What the parts of the kit know of one another: the runtime's calls that the C++ ABI has no name for.
#ifndef EHC_KIT_H
#define EHC_KIT_H

// An exception object stands in a slot of so many bytes.
const unsigned long slot_size = 4096;

// Call 7: the object that is to be destroyed, or 0, and its destructor, or 0.
struct Left {
  void* object;
  void (*destructor)(void*);
};

// Call 18: the unexpected handler that is kept with the exception, or 0, and the exception table of the function whose specification stopped it.
struct Begun {
  void (*handler)();
  const unsigned char* table;
};

extern "C" {
void* ehc_allocate() noexcept;
void ehc_begin_catch(void* object) noexcept;
Left ehc_end_catch() noexcept;
void ehc_rethrow() __attribute__((noreturn));
void ehc_set_terminate(std::terminate_handler) noexcept;
void ehc_set_unexpected(std::unexpected_handler) noexcept;
Begun ehc_unexpected_begin(void* exception) noexcept;
// 0 where the list allows the exception, 1 where it has std::bad_exception, otherwise 2
int ehc_unexpected_check(const unsigned char* table, long selector, void* exception) noexcept;
void ehc_terminate_for(void* exception) noexcept __attribute__((noreturn));

void* __cxa_begin_catch(void* object) noexcept;
void __cxa_end_catch();
void __cxa_rethrow() __attribute__((noreturn));
void __cxa_free_exception(void* object) noexcept;
void _Unwind_Resume(void* object) __attribute__((noreturn));
void __cxa_call_unexpected(void* exception, long left_over) __attribute__((noreturn));
}

long selector_of(const unsigned char* table, long left_over, void* exception) noexcept;

#endif
