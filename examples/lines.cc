int main() { write_int(0); write_int(42); write_int(2048); write_int(2147483647); return 7; }
