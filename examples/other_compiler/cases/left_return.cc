// A destructor throws while `main` returns, the exception is handled, and `main` comes to its end, which returns 0. The code of clang returns the 5 of the statement
// that was left.
// otherwise clang
// not host
struct Thrower {
  ~Thrower() { throw 1; }
};
int main() {
  try { Thrower thrower; return 5; }
  catch (int e) { write_int(e); }
}
