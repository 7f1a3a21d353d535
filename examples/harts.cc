// Each hart of this program holds so many exceptions at once: a handler in a handler, 100 for the digit that its input begins with. It waits for a while
// and lets them go. No more than 1,024 can be live over all harts, so a hart may have to wait until another one has let some go.
void hold(int n) {
  try { throw n; }
  catch (int e) {
    if (e % 100 == 0) write_int(e);
    if (e > 1) hold(e - 1);
    else { int i = 0; while (i < 400000) i = i + 1; write_int(0); }
  }
}
int main() {
  hold(100 * (read_byte() - 48));
  return 0;
}
