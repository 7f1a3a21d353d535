// A forced unwind: every object is destroyed and the handler is left, and no handler is entered.
struct Lock {
  int id;
  Lock(int i) : id(i) { }
  ~Lock() { write_int(id); }
};
void stop() {
  Lock inner(3);
  try { __cancel(4); }
  catch (...) { write_int(9); }
}
int main() {
  Lock outer(1);
  try { throw 8; }
  catch (int e) { Lock handling(2); stop(); }
  return 0;
}
