// What nothing catches terminates where it is thrown, before the lock is destroyed. The handler may look at it, and what it throws itself ends the program.
struct Lock {
  int n;
  Lock(int k) : n(k) { }
  ~Lock() { write_int(n); }
};
void stopped() {
  write_int(7);
  try { throw; } catch (int e) { write_int(e); }
  throw 4;
}
void work() { Lock lock(1); throw 5; }
int main() {
  std::set_terminate(stopped);
  try { throw 2; } catch (int e) { write_int(e); }
  work();
  return 0;
}
