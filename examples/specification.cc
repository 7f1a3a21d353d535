// Two exceptions that a specification does not allow. The unexpected handler throws an int in place of the first, which is allowed, and
// another class in place of the second, which is not: there std::bad_exception takes its place.
struct Disk { };
struct Net { };
int calls = 0;
void translate() {
  calls = calls + 1;
  write_int(calls);
  if (calls == 1) throw 4;
  throw Net();
}
void load() throw(int, std::bad_exception) { throw Disk(); }
int main() {
  std::set_unexpected(translate);
  try { load(); } catch (int e) { write_int(100 + e); }
  try { load(); } catch (std::bad_exception& e) { write_int(200); }
  return 0;
}
