// An exception that is looked at by one function, thrown again by another, and handled by a third.
struct Error {
  int code;
  Error(int c) : code(c) { }
  ~Error() { write_int(900 + code); }
};
void look() {
  try { throw; }  // the newest exception that is handled, wherever its handler stands
  catch (Error& e) { write_int(e.code); }
}
int main() {
  try {
    try { throw Error(1); }
    catch (...) { look(); throw; }
  }
  catch (Error& e) { write_int(100 + e.code); }
  return 0;
}
