// A handler's exception is thrown again by a function that it calls, which changes it there; a handler by value copies it. With none handled it terminates.
struct Fault {
  int n;
  Fault(int k) : n(k) { }
  ~Fault() { write_int(n); }
};
void look() {
  try { throw; }
  catch (Fault& f) { write_int(100 + f.n); f.n = f.n + 1; }
  catch (int e) { write_int(e); throw e + 1; }
}
void stopped() { write_int(55); exit(6); }
int main() {
  try {
    try { throw Fault(1); }
    catch (...) { look(); look(); throw; }
  }
  catch (Fault f) { write_int(f.n); }
  try {
    try { throw 4; }
    catch (...) { look(); }
  }
  catch (int e) { write_int(e); }
  std::set_terminate(stopped);
  try { look(); }
  catch (...) { write_int(77); }
  return 0;
}
