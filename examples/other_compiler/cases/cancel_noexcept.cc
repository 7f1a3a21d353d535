// A forced unwind comes out of a noexcept function. g++ writes no call site in one, which terminates; clang writes a `catch (...)` and no cleanup.
// std 11
// otherwise g++, clang
// not host
struct Lock {
  int n;
  Lock(int k) : n(k) { }
  ~Lock() { write_int(n); }
};
void stop() noexcept { Lock lock(1); __cancel(4); }
int main() {
  stop();
  return 0;
}
