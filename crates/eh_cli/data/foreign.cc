struct A {
    int n;
    A(int k) { n = k; }
    ~A() { write_int(n); }
};

int main() {
    try {
        try {
            __module(0, 0);
        } catch (A&) {
            write_int(1);
        } catch (...) {
            write_int(2);
            throw;
        }
    } catch (...) {
        write_int(3);
    }
    return 0;
}
