// Two functions with specifications are put into one, and neither list allows the exception. Which of them stopped it only the selector says, which the ABI's
// call does not hand on; the register that had it was changed by a destructor. So the first list of the table is asked, also for the second function.
// only g++ -O0, clang -O0, host
// otherwise g++, clang
void touch(int a, int b) { write_int(a + b); }
struct Lock {
  int n;
  Lock(int k) : n(k) { }
  ~Lock() { touch(n, 3); }
};
struct Net { };
__attribute__((always_inline)) static inline int a(int k) throw(int) { Lock lock(1); if (k == 1) throw Net(); return k; }
__attribute__((always_inline)) static inline int b(int k) throw(Lock) { Lock lock(2); if (k == 2) throw Net(); return k; }
void to_int() { write_int(100); throw 8; }
void to_lock() { write_int(200); throw Lock(9); }
int main() {
  std::set_unexpected(to_int);
  try { write_int(a(1)); write_int(b(1)); } catch (int e) { write_int(e); } catch (Lock& l) { write_int(l.n); }
  std::set_unexpected(to_lock);
  try { write_int(b(2)); write_int(a(2)); } catch (int e) { write_int(e); } catch (Lock& l) { write_int(l.n); }
  return 0;
}
