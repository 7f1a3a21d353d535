// What comes out of a noexcept function terminates. This language and clang unwind the function before, g++ does not; the standard of 2011 leaves it open (15.5.1/2).
// std 11
// otherwise g++, host
struct Lock {
  int n;
  Lock(int k) : n(k) { }
  ~Lock() { write_int(n); }
};
void close() noexcept { Lock lock(1); throw 2; }
int main() {
  close();
  return 0;
}
