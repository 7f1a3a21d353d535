// Where clang puts a function with a cleanup into a try block, the pad of both has a cleanup, and behind it the handler runs: a `catch (...)` has taken a forced
// unwind then, and another exception is thrown and caught before that goes on.
// only clang -O0, host
struct Lock {
  int n;
  Lock(int k) : n(k) { }
  ~Lock() { write_int(n); }
};
__attribute__((always_inline)) static inline void stop() { Lock inner(2); __cancel(4); }
int main() {
  Lock outer(1);
  try { stop(); }
  catch (...) {
    write_int(9);
    try { throw 5; } catch (int e) { write_int(e); }
    throw;
  }
  return 0;
}
