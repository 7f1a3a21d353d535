// 70 at 16
int nullptr = 0;

int main() {
  return nullptr;
}
