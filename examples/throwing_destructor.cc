// A destructor that throws. Where its scope is left normally the exception goes on, and the other objects are destroyed under it; where
// another exception is on its way the program terminates. By the standard of 2011 the destructor is noexcept, and the first throw terminates.
struct Guard {
  int id;
  Guard(int i) : id(i) { }
  ~Guard() { write_int(id); if (id == 2) throw id; }
};
int main() {
  try { Guard a(1); Guard b(2); Guard c(3); }
  catch (int e) { write_int(100 + e); }
  try { Guard b(2); throw 7; }
  catch (...) { write_int(0); }
  return 0;
}
