// Specifications of a function, a constructor and a destructor: what the unexpected handler throws is allowed, gives way to std::bad_exception, or terminates.
struct Disk { };
struct Net { };
struct Lock {
  int n;
  Lock(int k) : n(k) { }
  ~Lock() { write_int(n); }
};
void to_int() { write_int(std::uncaught_exception()); throw 8; }
void again() { throw; }
void load(int k) throw(int) { Lock lock(k); throw Disk(); }
void store(int k) throw(std::bad_exception, int) { Lock lock(k); throw Net(); }
struct Built {
  Lock part;
  Built() throw(int) : part(1) { throw Disk(); }
};
struct Left {
  int n;
  Left(int k) : n(k) { }
  ~Left() throw(int) { write_int(n); if (n == 30) throw Net(); }
};
void stopped() { write_int(9); exit(7); }
int main() {
  std::set_unexpected(to_int);
  try { load(10); } catch (int e) { write_int(e); }
  try { Built built; } catch (int e) { write_int(e); }
  try { Left left(30); } catch (int e) { write_int(e); }
  std::set_unexpected(again);
  try { store(20); } catch (std::bad_exception& e) { write_int(21); }
  std::set_terminate(stopped);
  load(40);
  return 0;
}
