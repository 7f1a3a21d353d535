struct Lock { int id; Lock(int i) { id = i; } ~Lock() { write_int(id); } };
void work(int n) { Lock l(n); throw n + 1; }
int main() { try { work(7); } catch (int e) { write_int(e); } return 0; }
