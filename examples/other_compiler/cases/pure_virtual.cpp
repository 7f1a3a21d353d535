// A function that is pure yet is called while the base is constructed, which terminates.
struct Base {
  Base() { call(); }
  virtual ~Base() { }
  virtual void made() = 0;
  void call() { made(); }
};
struct Whole : Base {
  void made() { write_int(1); }
};
void stopped() { write_int(7); exit(3); }
int main() {
  std::set_terminate(stopped);
  Whole whole;
  write_int(2);
  return 0;
}
