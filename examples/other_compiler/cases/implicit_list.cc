// A destructor without a specification, whose member's destructor has an empty list, is noexcept by this language, so that the unexpected handler is not called. clang
// gives it that empty list (2011, 15.4/14).
// std 11
// otherwise clang
struct Part {
  ~Part() throw() { }
};
struct Whole {
  Part part;
  ~Whole() { throw 3; }
};
void u() { write_int(5); throw 4; }
int main() {
  std::set_unexpected(u);
  try { Whole whole; } catch (int e) { write_int(e); }
  return 0;
}
