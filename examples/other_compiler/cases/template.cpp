// Each instance of a template is a type of its own, with a type record of its own.
template <class T> struct Error {
  T value;
  Error(T v) : value(v) { }
};
template <class T> int tried(T value) {
  try { throw Error<T>(value); }
  catch (Error<long>& e) { return e.value; }
  catch (Error<T>& e) { return 100 + e.value; }
}
template <class T, int n> struct Guard {
  T last;
  Guard(T l) : last(l) { }
  ~Guard() { write_int(n + last); }
};
int main() {
  write_int(tried(5L));
  write_int(tried('A'));
  write_int(tried(7));
  try {
    Guard<char, 10> outer(1);
    Guard<long, 20> inner(2);
    throw Error<short>(3);
  }
  catch (Error<short> e) { write_int(e.value); }
  return 0;
}
