class X {
    static int f(byte a, byte b) {
        return a / b;
    }
}
