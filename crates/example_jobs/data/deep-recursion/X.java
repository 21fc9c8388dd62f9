class X {
    static int f(byte x) {
        int n = x & 255;
        return n * (n + 1) >> 1;
    }
}
