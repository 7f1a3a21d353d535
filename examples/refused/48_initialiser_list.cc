// 48 at 95
struct Base { int n; };

struct Derived : Base {
  int m;
  Derived(int k) : m(k), n(k) { }
};

int main() {
  Derived d(1);
  return d.m;
}
