// Nothing is handled, so `throw;` terminates. What the terminate handler throws does not come to the handler round that place.
void stopped() { write_int(7); throw 4; }
int main() {
  std::set_terminate(stopped);
  try { throw; }
  catch (int e) { write_int(e); }
  return 0;
}
