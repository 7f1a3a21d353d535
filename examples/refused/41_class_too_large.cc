// 41 at 258
struct Two { int a; int b; };
struct Four { Two a; Two b; };
struct Eight { Four a; Four b; };
struct Sixteen { Eight a; Eight b; };
struct More { Sixteen a; Sixteen b; };
struct Many { More a; More b; };
struct Most { Many a; Many b; };
struct All : Most { Most a; int n; };

int main() {
  return 0;
}
