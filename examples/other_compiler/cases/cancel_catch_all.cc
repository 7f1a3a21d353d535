// A forced unwind passes a `catch (...)`. The tables of g++ and clang have no cleanup beside one, since by their ABI such an unwind enters it; so no object of
// that function is destroyed.
// otherwise g++, clang
// not host
struct Lock {
  int n;
  Lock(int k) : n(k) { }
  ~Lock() { write_int(n); }
};
int main() {
  Lock outer(1);
  try { Lock inner(2); __cancel(4); }
  catch (...) { write_int(9); throw; }
  return 0;
}
