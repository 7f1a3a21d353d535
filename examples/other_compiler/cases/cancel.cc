// A forced unwind goes through the building of an exception, a specification, a try block and a handler: what stands there is destroyed, and nothing takes it.
struct Lock {
  int n;
  Lock(int k) : n(k) { }
  ~Lock() { write_int(n); }
};
struct Pair {
  Lock a;
  Lock b;
  Pair(int k) : a(k), b(k + 1) { if (k == 3) __cancel(4); }
};
void build() throw(int) {
  Lock lock(1);
  try { throw Pair(3); } catch (int e) { write_int(e); }
}
int main() {
  Lock outer(9);
  try { throw 8; }
  catch (int e) { Lock inner(6); build(); }
  return 0;
}
