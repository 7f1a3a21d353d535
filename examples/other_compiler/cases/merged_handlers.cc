// A destructor throws at the end of a handler, and the exception goes on. g++ merges the ends of both handlers when it optimises, of which that of the int does not
// throw, and keeps the call site of neither, so that the exception terminates; with -fno-tree-tail-merge it does not.
// otherwise g++ -O2, host -O2
int wanted = 5;
struct Fault {
  int n;
  Fault(int k) : n(k) { }
  ~Fault() { write_int(n); if (n == wanted) throw 3; }
};
int work(int k) {
  try { if (k == wanted) throw Fault(k); }
  catch (int e) { write_int(e); }
  catch (...) { write_int(20); }
  return 0;
}
int main() {
  try { write_int(work(5)); }
  catch (int e) { write_int(e); }
  return 0;
}
