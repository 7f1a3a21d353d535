// Classes whose first virtual function stands in this file: their type records do too, one behind the other. The base's has two words, and its neighbour must
// not be taken for the third.
struct Base {
  int n;
  Base(int k) : n(k) { }
  virtual ~Base();
  virtual int number();
};
Base::~Base() { write_int(n); }
int Base::number() { return n; }
struct Derived : Base {
  Derived(int k) : Base(k) { }
  ~Derived();
  int number();
};
Derived::~Derived() { }
int Derived::number() { return 5; }
int main() {
  try { throw Derived(3); } catch (Base& base) { write_int(base.number()); }
  try { throw Base(4); } catch (Derived&) { write_int(1); } catch (Base& base) { write_int(base.number()); }
  return 0;
}
