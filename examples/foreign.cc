// A module of another language raises an exception with the token 7, and answers the second call with 5. Only `catch (...)` takes it.
struct Lock {
  int id;
  Lock(int i) : id(i) { }
  ~Lock() { write_int(id); }
};
int ask(int n) { Lock lock(n); return __module(0, n); }
int main() {
  try { write_int(ask(1)); }
  catch (int e) { write_int(e); }
  catch (...) { write_int(100); }
  write_int(ask(2));
  return 0;
}
