// The copy constructor throws while `throw` copies its operand: by the letter of the standard that terminates (15.5.1/1). Compilers let the exception go on, as
// later standards say.
// otherwise g++, clang, host
struct Fault {
  int n;
  Fault(int k) : n(k) { }
  Fault(const Fault& other) : n(other.n) { write_int(50); throw 3; }
  ~Fault() { write_int(n); }
};
int main() {
  Fault fault(1);
  try { throw fault; }
  catch (int e) { write_int(e); }
  catch (Fault& f) { write_int(f.n); }
  return 0;
}
