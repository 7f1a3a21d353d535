// The destructor of an exception throws while another one travels, which terminates. The code of clang unwinds the destructor before, as in throwing_cleanup, so
// the first exception is freed before the third is entered; only the events tell.
// events clang
struct Fault {
  int n;
  Fault(int k) : n(k) { }
  ~Fault() { write_int(n); if (n == 2) throw 3; }
};
int main() {
  try {
    try { throw Fault(2); }
    catch (Fault& f) { throw 11; }
  }
  catch (int e) { write_int(e); }
  return 0;
}
