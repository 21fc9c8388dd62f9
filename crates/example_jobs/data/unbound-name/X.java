class X {
    static byte f(byte x) {
        return x;
    }
}
