// A destructor throws while an exception travels, and terminate is called where it throws. The code of clang catches what comes out of the destructor and calls
// terminate then, so the object inside is destroyed first; so does g++'s own library where the destructor has a frame of its own. The standard leaves that open
// (15.5.1/2).
// otherwise clang, host -O0
struct Lock {
  int n;
  Lock(int k) : n(k) { }
  ~Lock() { write_int(n); }
};
int wanted = 3;
struct Thrower {
  int n;
  Thrower(int k) : n(k) { }
  ~Thrower() { Lock inside(7); if (n == wanted) throw n; }
};
int main() {
  try { Thrower thrower(3); throw 5; }
  catch (int e) { write_int(e); }
  return 0;
}
