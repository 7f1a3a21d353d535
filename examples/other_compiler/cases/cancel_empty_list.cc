// A forced unwind comes out of a function that allows nothing. By the ABI that does not happen, so that g++ writes no call site for the call of such a function,
// which terminates; clang writes no cleanup beside the empty list, and without optimising goes into the list as behind a cleanup.
// otherwise g++, clang
// not host
struct Lock {
  int n;
  Lock(int k) : n(k) { }
  ~Lock() { write_int(n); }
};
void stop() throw() { Lock lock(1); __cancel(6); }
int main() {
  Lock outer(2);
  try { throw 3; }
  catch (int e) { write_int(e); stop(); }
  return 0;
}
