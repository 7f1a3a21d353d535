// The handler round a constructor runs when the parts are destroyed, and at its end the exception goes on; round a function it may return.
struct Part {
  int n;
  Part(int k) : n(k) { if (k == 2) throw k; }
  ~Part() { write_int(10 + n); }
};
struct Whole {
  Part first;
  Part second;
  Whole(int k) try : first(1), second(k) { write_int(k); } catch (int e) { write_int(100 + e); }
};
int tried(int k) try { Whole whole(k); return 1; } catch (int e) { write_int(200 + e); return 2; }
int main() {
  write_int(tried(3));
  write_int(tried(2));
  return 0;
}
