// The same with a handler that does not throw it on, which terminates.
// only clang -O0
struct Lock {
  int n;
  Lock(int k) : n(k) { }
  ~Lock() { write_int(n); }
};
__attribute__((always_inline)) static inline void stop() { Lock inner(2); __cancel(4); }
int main() {
  Lock outer(1);
  try { stop(); }
  catch (...) { write_int(9); }
  return 0;
}
