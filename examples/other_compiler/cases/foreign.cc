// Exceptions of another language: only `catch (...)` takes them, they may be thrown on, and to enter one while another is handled terminates.
// exec --foreign=r7,v5,r6,r8
struct Lock {
  int n;
  Lock(int k) : n(k) { }
  ~Lock() { write_int(n); }
};
int ask(int k) { Lock lock(k); return __module(0, k); }
void stopped() { write_int(50); exit(8); }
int main() {
  try { write_int(ask(1)); } catch (int e) { write_int(60); } catch (...) { write_int(2); }
  write_int(ask(3));
  try {
    try { write_int(ask(4)); } catch (...) { write_int(5); throw; }
  }
  catch (...) { write_int(6); }
  std::set_terminate(stopped);
  try { throw 1; }
  catch (int e) {
    try { write_int(ask(8)); } catch (...) { write_int(70); }
  }
  return 0;
}
