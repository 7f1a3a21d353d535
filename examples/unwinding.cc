// An exception that unwinds two functions, and is caught by its base.
struct Error { int code; Error(int c) : code(c) { } };
struct IoError : public Error { IoError(int c) : Error(c) { } };
struct Lock {
  int id;
  Lock(int i) : id(i) { write_int(100 + id); }
  ~Lock() { write_int(200 + id); }
};
void parse(int n) {
  Lock l(n);
  if (n == 2) throw IoError(n);
  parse(n + 1);
}
int main() {
  try { parse(1); }
  catch (const Error& e) { write_int(e.code); }
  return 0;
}
