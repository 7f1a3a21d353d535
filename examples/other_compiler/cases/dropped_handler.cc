// A destructor that always throws: the handler is never come to, so g++ leaves it out when it optimises, and the first exception finds none and terminates. The
// standard leaves open whether the stack is unwound before (15.5.1/2).
// otherwise g++ -O1, g++ -O2, host -O1, host -O2
struct Thrower {
  ~Thrower() { write_int(4); throw 1; }
};
int main() {
  try { Thrower thrower; throw 5; }
  catch (int e) { write_int(e); }
  return 0;
}
