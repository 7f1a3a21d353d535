// The calls of ehc's language over the library of the machine's own g++, so that its unwinder can be asked too. EHC_FOREIGN has the modules, as in
// --foreign, with blanks between them. A program ends with the line that `ehc exec` would end with.
#include <exception>
#include <signal.h>
#include <stdio.h>
#include <stdlib.h>
#include <string.h>
#include <unistd.h>
#include <unwind.h>

int ehc_main();

namespace {

const int most_modules = 64;
const char* modules[most_modules];
int cancelled;

void ends(const char* how) {
  printf("= %s\n", how);
  fflush(stdout);
  _exit(0);
}

void on_abort(int) { ends("aborted"); }

void read_modules(const char* words) {
  for (int k = 0; words && k < most_modules; k++) {
    modules[k] = words;
    words = strchr(words, ' ');
    if (words) words++;
  }
}

void clean(_Unwind_Reason_Code, _Unwind_Exception* exception) { free(exception); }

void raise_foreign() {
  _Unwind_Exception* exception = static_cast<_Unwind_Exception*>(calloc(1, sizeof(_Unwind_Exception)));
  exception->exception_class = 0x6568636d6f64756cULL;  // of no language that the library knows
  exception->exception_cleanup = clean;
  _Unwind_RaiseException(exception);
  std::terminate();
}

}

extern "C" {

void write_int(int n) { printf("%d\n", n); }
int read_byte() { return getchar(); }

void ehc_exit(int n) {
  char how[32];
  snprintf(how, sizeof how, "exit %d", n);
  ends(how);
}

int __module(int k, int) {
  if (k < 0 || k >= most_modules || !modules[k] || !*modules[k] || *modules[k] == ' ') return 0;
  char* end;
  char kind = *modules[k];
  int value = strtol(modules[k] + 1, &end, 10);
  modules[k] = *end == ',' ? end + 1 : end;
  if (kind == 'r') raise_foreign();
  return value;
}

static _Unwind_Reason_Code at_each_frame(int, _Unwind_Action actions, _Unwind_Exception_Class, _Unwind_Exception*, _Unwind_Context*, void*) {
  if (actions & _UA_END_OF_STACK) ehc_exit(cancelled);
  return _URC_NO_REASON;
}

void __cancel(int n) {
  static _Unwind_Exception forced;
  cancelled = n;
  _Unwind_ForcedUnwind(&forced, at_each_frame, 0);
  std::terminate();
}

}

int main() {
  read_modules(getenv("EHC_FOREIGN"));
  signal(SIGABRT, on_abort);
  // the library's own handler reads the type of what is handled, which an exception of another language does not have
  std::set_terminate(abort);
  ehc_exit(ehc_main());
}
