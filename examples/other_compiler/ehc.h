// What a source may use under `ehc exec` without declaring it: the calls of ehc's language, and the part of <exception> and <new> that the kit has. `./ehc link`
// puts it in front of each source. The headers themselves are not used, since clang without a library for RISC-V has none.
#ifndef EHC_H
#define EHC_H

#if __cplusplus >= 201103L
#define EHC_NOTHROW noexcept
#else
#define EHC_NOTHROW throw()
#endif

extern "C" {
void write_int(int);
int read_byte();
void ehc_exit(int) __attribute__((noreturn));
int __module(int, int);
void __cancel(int) __attribute__((noreturn));
}
#define exit ehc_exit

namespace std {

class exception {
 public:
  exception() EHC_NOTHROW { }
  virtual ~exception() EHC_NOTHROW;
  virtual const char* what() const EHC_NOTHROW;
};

class bad_exception : public exception {
 public:
  bad_exception() EHC_NOTHROW { }
  virtual ~bad_exception() EHC_NOTHROW;
  virtual const char* what() const EHC_NOTHROW;
};

class bad_alloc : public exception {
 public:
  bad_alloc() EHC_NOTHROW { }
  virtual ~bad_alloc() EHC_NOTHROW;
  virtual const char* what() const EHC_NOTHROW;
};

typedef void (*terminate_handler)();
typedef void (*unexpected_handler)();
void terminate() EHC_NOTHROW __attribute__((noreturn));
void unexpected() __attribute__((noreturn));
terminate_handler set_terminate(terminate_handler) EHC_NOTHROW;
unexpected_handler set_unexpected(unexpected_handler) EHC_NOTHROW;
bool uncaught_exception() EHC_NOTHROW;

}

// The host's own library calls another main, so that this one has to end with a return.
#ifdef EHC_HOST
#define main ehc_main
#endif
#endif
