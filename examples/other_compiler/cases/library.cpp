// The part of the library that the kit has: what() by the base, old handlers, new and where it fails, objects of static storage duration, std::bad_exception.
int length(const char* text) {
  int n = 0;
  while (text[n]) n++;
  return n;
}
struct Full : std::exception {
  const char* what() const throw() { return "full"; }
};
struct Early {
  Early() { write_int(1); }
  ~Early() { write_int(2); }
} early;
int counted() {
  static Early local;
  return 3;
}
void first() { }
void second() { write_int(44); exit(5); }
void translate() { throw Full(); }
void listed() throw(std::bad_exception) { throw 1; }
volatile unsigned long much = 1UL << 62;
int main() {
  try { throw Full(); } catch (std::exception& e) { write_int(length(e.what())); }
  std::set_unexpected(translate);
  try { listed(); } catch (std::exception& e) { write_int(length(e.what())); }
  write_int(counted() + counted());
  std::set_terminate(first);
  write_int(std::set_terminate(second) == first);
  int* numbers = new int[3];
  numbers[2] = 9;
  write_int(numbers[2]);
  delete[] numbers;
  try { char* bytes = new char[much]; bytes[0] = 0; write_int(bytes[0]); } catch (std::bad_alloc&) { write_int(62); }
  std::terminate();
}
