// Nothing stops this exception: terminate is called where it is thrown, before the lock is destroyed, and its handler looks at the exception.
struct Lock {
  int id;
  Lock(int i) : id(i) { }
  ~Lock() { write_int(id); }
};
void last_words() {
  try { throw; }
  catch (int e) { write_int(100 + e); }
  exit(3);
}
int main() {
  std::set_terminate(last_words);
  Lock lock(1);
  throw 6;
}
