// A forced unwind comes out of a destructor while an exception travels, which terminates. What clang puts round the destructor is a `catch (...)`, and a forced unwind
// passes that.
// otherwise clang
// not host
int wanted = 1;
struct Stopper {
  int n;
  Stopper(int k) : n(k) { }
  ~Stopper() { write_int(n); if (n == wanted) __cancel(5); }
};
int main() {
  try { Stopper stopper(1); throw 2; }
  catch (int e) { write_int(e); }
  return 0;
}
