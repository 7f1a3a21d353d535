// An exception of another language comes to a specification: it is doomed. The personality of g++'s own library stops it at an empty list alone.
// exec --foreign=r7
// otherwise host
int ask() throw(int) { return __module(0, 1); }
void stopped() { write_int(1); exit(3); }
int main() {
  std::set_terminate(stopped);
  try { write_int(ask()); } catch (...) { write_int(2); }
  return 0;
}
